//! What include/sheet.h tells a caller besides the answers: its numbers, and null where a length is 0.

use sheet_tests::answer::Answer;
use sheet_tests::cases::{plan_s, plan_t};
use sheet_tests::ffi::{
    alter, first_difference, house_plan, part, plan_make, put_back, read_stack, read_two, sums,
    turn, BY_COLUMN, BY_TRIAL, SHEET,
};
use sheet_tests::given::{Given, HOUSE};
use sheet_tests::header::constant;
use sheet_tests::make::no_data;
use sheet_tests::model::{self, Layout};
use sheet_tests::pairs::difference_of;
use sheet_tests::plan::HEADER_LEN;
use sheet_tests::rng::Rng;
use sheet_tests::runs::whole;
use sheet_tests::scans::{dark_sheet, turned};
use sheet_tests::stacks::Lent;

/// The numbers of the checks that the maker brings.
#[test]
fn numbers_of_the_maker() {
    assert_eq!([constant("SHEET_PLAN_POLYNOMIAL"), constant("SHEET_PLAN_FEW_CELLS")], [15, 16]);
}

/// The number of the check that the sums of a run bring, and their length.
#[test]
fn numbers_of_the_sums() {
    assert_eq!([constant("SHEET_SUMS_LENGTH"), constant("SHEET_SUMS_BYTES")], [24, 8]);
}

/// The numbers of the checks that an alteration brings.
#[test]
fn numbers_of_an_alteration() {
    assert_eq!([constant("SHEET_POSITION"), constant("SHEET_NOT_BELONGING")], [17, 18]);
}

/// The number of the check that two scans bring.
#[test]
fn number_of_two_scans() {
    assert_eq!(constant("SHEET_DATA_DIFFER"), 19);
}

/// The numbers of the checks that a stack brings, its most sheets, and the bytes of a sheet's numbers.
#[test]
fn numbers_of_a_stack() {
    assert_eq!([constant("SHEET_STACK_FORM"), constant("SHEET_NUMBERS_LENGTH")], [20, 21]);
    assert_eq!([constant("SHEET_STACK_SHEETS"), constant("SHEET_STACK_NUMBERS")], [64, 18]);
}

/// The number of the check that putting back brings.
#[test]
fn number_of_putting_back() {
    assert_eq!(constant("SHEET_NOT_A_BURST"), 22);
}

/// The number of the check of t.
#[test]
fn number_of_few_cells() {
    assert_eq!(constant("SHEET_PLAN_MOST_CELLS"), 23);
}

#[test]
fn length_of_a_plans_header() {
    assert_eq!(constant("SHEET_PLAN_HEADER_BYTES"), HEADER_LEN);
}

#[test]
fn length_of_the_house_plan() {
    assert_eq!(constant("SHEET_HOUSE_PLAN_BYTES"), HOUSE.plan_len());
}

/// Bytes, or none if a bit of `empty` says so.
fn kept(empty: usize, buffer: usize, bytes: Vec<u8>) -> Vec<u8> {
    if empty >> buffer & 1 == 1 {
        vec![]
    } else {
        bytes
    }
}

/// Each buffer empty and null, in each combination, under plans with data and without.
#[test]
fn null_where_the_length_is_0() {
    let null = SHEET.with_null();
    let mut taken = 0;
    for plan in [plan_s(), plan_t(), no_data()] {
        for empty in 0..8 {
            let bytes = kept(empty, 0, plan.encode());
            let data = kept(empty, 1, vec![0; plan.data_len()]);
            let sheet = kept(empty, 2, vec![0; plan.sheet_len()]);

            let (mut wrote, mut expected) = (sheet.clone(), sheet.clone());
            let answer = null.write(&bytes, &data, &mut wrote);
            assert_eq!(answer, model::write(&bytes, &data, &mut expected).pack());
            assert_eq!(wrote, expected);

            let (mut scan, mut into) = (sheet.clone(), data.clone());
            let (mut expected, mut expected_into) = (sheet.clone(), data.clone());
            let told = model::read(&bytes, &mut expected, &mut expected_into);
            assert_eq!(null.read(&bytes, &mut scan, &mut into), told.pack());
            assert_eq!((scan, into), (expected, expected_into));

            assert_eq!(null.plan_test(&bytes), model::test_plan(&bytes).pack());
            taken += usize::from(answer == 0 && data.is_empty());
        }
    }
    assert!(taken > 0, "a call with null data succeeds where there is no data");
    for (given, number) in [
        (HOUSE, 5),
        (Given { b1: 0, ..HOUSE }, 2),
        (Given { n1: 0, ..HOUSE }, 3),
        (Given { rv: 0, ..HOUSE }, 4),
        (Given { t: 3, ..HOUSE }, 23),
        (Given { v_low: 0, ..HOUSE }, 5),
    ] {
        assert_eq!(plan_make(&given, &mut [], true), number);
    }
    assert_eq!(house_plan(&mut [], true), 5);
    assert_eq!(Answer::unpack(null.plan_test(&[])), Answer::refusal(1, 0, 0));
}

/// The same for sheets by columns: written, and read.
#[test]
fn null_columns() {
    let null = BY_COLUMN.with_null();
    let with_data = [0, 1, 12, 1, 11, 1, 11, 1];
    let without = [0, 1, 0, 1, 11, 1, 11, 1];
    for (plan, numbers) in [(plan_s(), with_data), (plan_t(), with_data), (no_data(), without)] {
        for (empty, number) in numbers.into_iter().enumerate() {
            let bytes = kept(empty, 0, plan.encode());
            let data = kept(empty, 1, vec![0; plan.data_len()]);
            let sheet = kept(empty, 2, vec![0; Layout::Columns.sheet_len(&plan)]);

            let (mut wrote, mut expected) = (sheet.clone(), sheet.clone());
            let told = model::write_by_column(&bytes, &data, &mut expected);
            assert_eq!(told.number, number, "{empty}");
            assert_eq!(null.write(&bytes, &data, &mut wrote), told.pack());
            assert_eq!(wrote, expected);

            let (mut scan, mut into) = (sheet.clone(), data.clone());
            let (mut expected, mut expected_into) = (sheet, data);
            let told = model::read_by_column(&bytes, &mut expected, &mut expected_into);
            assert_eq!(told.number, number, "{empty}");
            assert_eq!(null.read(&bytes, &mut scan, &mut into), told.pack());
            assert_eq!((scan, into), (expected, expected_into));
        }
    }
}

/// The same for reading by trial, in which nothing is to be mended.
#[test]
fn null_trial() {
    let null = BY_TRIAL.with_null();
    let with_data = [0, 1, 12, 1, 11, 1, 11, 1];
    let without = [0, 1, 0, 1, 11, 1, 11, 1];
    for (plan, numbers) in [(plan_s(), with_data), (plan_t(), with_data), (no_data(), without)] {
        for (empty, number) in numbers.into_iter().enumerate() {
            let bytes = kept(empty, 0, plan.encode());
            let held = kept(empty, 1, vec![0xaa; plan.data_len()]);
            let sheet = kept(empty, 2, vec![0; plan.sheet_len()]);
            let (mut scan, mut into) = (sheet.clone(), held.clone());
            let (mut expected, mut expected_into) = (sheet, held);
            let told = model::read_by_trial(&bytes, &mut expected, &mut expected_into);
            assert_eq!(told.number, number, "{empty}");
            assert_eq!(null.read(&bytes, &mut scan, &mut into), told.pack());
            assert_eq!((scan, into), (expected, expected_into));
        }
    }
}

/// The same for turning, either way: the plan, the source and the target.
#[test]
fn null_turned() {
    for plan in [plan_s(), plan_t(), no_data()] {
        for from in Layout::BOTH {
            for (empty, number) in [0, 1, 11, 1, 11, 1, 11, 1].into_iter().enumerate() {
                let bytes = kept(empty, 0, plan.encode());
                let source = kept(empty, 1, vec![1; from.sheet_len(&plan)]);
                let held = kept(empty, 2, vec![0xaa; from.other().sheet_len(&plan)]);
                let (mut target, mut expected) = (held.clone(), held);
                let told = model::turn(from, &bytes, &source, &mut expected);
                assert_eq!(told.number, number, "{empty}");
                assert_eq!(turn(from, &bytes, &source, &mut target, true), told.pack());
                assert_eq!(target, expected);
            }
        }
    }
}

/// The same for the sums of a run: the plan, the sheet and the sums.
#[test]
fn null_sums() {
    for plan in [plan_s(), plan_t(), no_data()] {
        for empty in 0..8 {
            let bytes = kept(empty, 0, plan.encode());
            let sheet = kept(empty, 1, dark_sheet(&plan));
            let held = kept(empty, 2, vec![0xaa; 8]);
            let (mut into, mut expected) = (held.clone(), held);
            let told = model::sums(&bytes, &sheet, whole(&plan), &mut expected);
            assert_eq!(told.number, [0, 1, 11, 1, 24, 1, 11, 1][empty]);
            assert_eq!(sums(&bytes, &sheet, whole(&plan), &mut into, true), told.pack());
            assert_eq!(into, expected);
        }
    }
}

/// The same for an alteration: the plan and the sheet.
#[test]
fn null_altered() {
    for (plan, numbers) in
        [(plan_s(), [0, 1, 11, 1]), (plan_t(), [0, 1, 11, 1]), (no_data(), [17, 1, 11, 1])]
    {
        for (empty, number) in numbers.into_iter().enumerate() {
            let bytes = kept(empty, 0, plan.encode());
            let sheet = kept(empty, 1, vec![0; plan.sheet_len()]);
            let (mut left, mut expected) = (sheet.clone(), sheet);
            let told = model::alter(&bytes, &mut expected, 0);
            assert_eq!(told.number, number);
            assert_eq!(alter(&bytes, &mut left, 0, true), told.pack());
            assert_eq!(left, expected);
        }
    }
}

/// The same for putting back: the plan and the sheet, with an answer that is taken and one that is not.
#[test]
fn null_put_back() {
    for plan in [plan_s(), plan_t(), no_data()] {
        let cell = model::smallest_rectangle(&[(plan.n1 - 1, 1)]).pack();
        for (answer, number) in [(0, 0), (cell, 0), (cell | 1, 22)] {
            for (empty, number) in [number, 1, 11, 1].into_iter().enumerate() {
                let bytes = kept(empty, 0, plan.encode());
                let sheet = kept(empty, 1, vec![0; plan.sheet_len()]);
                let (mut left, mut expected) = (sheet.clone(), sheet);
                let told = model::put_back(&bytes, &mut expected, answer);
                assert_eq!(told.number, number);
                assert_eq!(put_back(&bytes, &mut left, answer, true), told.pack());
                assert_eq!(left, expected);
            }
        }
    }
}

/// The same for two scans: the plan, the first scan, the second and the data. Where there is no data, null
/// data is taken. The part of a scan that is null is empty.
#[test]
fn null_scans() {
    let with_data = [0, 1, 11, 1, 11, 1, 11, 1, 12, 1, 11, 1, 11, 1, 11, 1];
    let without = [0, 1, 11, 1, 11, 1, 11, 1, 0, 1, 11, 1, 11, 1, 11, 1];
    for (plan, numbers) in [(plan_s(), with_data), (plan_t(), with_data), (no_data(), without)] {
        for (empty, number) in numbers.into_iter().enumerate() {
            let bytes = kept(empty, 0, plan.encode());
            let light = vec![0; plan.sheet_len()];
            let first = kept(empty, 1, turned(&plan, &light, &[(plan.n1 - 1, 1)]));
            let second = kept(empty, 2, light);
            let held = kept(empty, 3, vec![0xaa; plan.data_len()]);
            let (mut data, mut expected) = (held.clone(), held);
            let told = model::read_two(&bytes, &first, &second, &mut expected);
            assert_eq!(told.number, number);
            assert_eq!(read_two(&bytes, &first, &second, &mut data, true), told.pack());
            assert_eq!(data, expected);

            let difference = first_difference(&bytes, &first, &second, true);
            let row = model::first_difference(&bytes, &first, &second);
            assert_eq!(row.is_empty(), empty & 7 != 0);
            assert_eq!(difference, difference_of(&row));
            assert_eq!(part(&second, difference), &second[row]);
        }
    }
}

/// The same for a stack: the plan, the stack, the numbers and the data. A stack of no sheets has two bytes, and takes
/// null for its numbers and its data; where a plan has no data, one of a sheet takes null for it too.
#[test]
fn null_stack() {
    let with_data = [0, 1, 20, 1, 21, 1, 20, 1, 12, 1, 20, 1, 21, 1, 20, 1];
    let without = [0, 1, 20, 1, 21, 1, 20, 1, 0, 1, 20, 1, 21, 1, 20, 1];
    let no_sheets = [0, 1, 20, 1].repeat(4);
    let mut rng = Rng::new(8);
    for (plan, one_sheet) in [(plan_s(), with_data), (plan_t(), with_data), (no_data(), without)] {
        for (rooms, of) in [(&[1][..], &one_sheet[..]), (&[], &no_sheets)] {
            for (empty, &number) in of.iter().enumerate() {
                let sheets = vec![vec![1; plan.sheet_len()]; rooms.len()];
                let lent = Lent::new(&plan, rooms, &sheets, &mut rng);
                let bytes = kept(empty, 0, plan.encode());
                let mut left = Lent {
                    stack: kept(empty, 1, lent.stack),
                    numbers: kept(empty, 2, lent.numbers),
                    data: kept(empty, 3, lent.data),
                };
                let mut expected = left.clone();
                let Lent { stack, numbers, data } = &mut expected;
                let told = model::read_stack(&bytes, stack, numbers, data);
                assert_eq!(told.number, number, "{empty}");
                let Lent { stack, numbers, data } = &mut left;
                assert_eq!(read_stack(&bytes, stack, numbers, data, true), told.pack());
                assert_eq!(left, expected);
            }
        }
    }
}

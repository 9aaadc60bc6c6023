//! The thread's stack that include/sheet.h tells is enough for each call, at full size.

use std::thread;

use sheet_tests::answer::Answer;
use sheet_tests::ffi::{
    alter, first_difference, house_plan, plan_make, put_back, read_stack, read_two, sums, turn,
    Archive, BY_TRIAL, SHEET,
};
use sheet_tests::given::{Given, HOUSE};
use sheet_tests::header::constant;
use sheet_tests::make::{
    largest_4x4, powers_1x1, powers_3x3, CellOrder, H_3X3, H_4X4, H_EVEN, SINGLE, V_EVEN, WIDE,
};
use sheet_tests::model::{self, Layout};
use sheet_tests::pairs::{difference_of, hopeless, row_places};
use sheet_tests::plan::Plan;
use sheet_tests::rng::Rng;
use sheet_tests::runs::whole;
use sheet_tests::scans::{dark_sheet, full_burst, random_data, turned};
use sheet_tests::sparse::{few_of_4x4, late_refusals, polynomials_4x4, reversed_4x4};
use sheet_tests::stacks::{told_of, Lent};

/// Make a call in a thread that has this much stack in all, for the call and for itself.
fn with_stack<T: Send + 'static>(bytes: usize, call: impl FnOnce() -> T + Send + 'static) -> T {
    let thread = thread::Builder::new().stack_size(bytes);
    let call = thread.spawn(call).expect("a thread can be started");
    call.join().expect("the call returns")
}

/// Plans of full size: for bursts of any cells, and of at most one or two, with tables of powers and with
/// others.
fn large_plans(rng: &mut Rng) -> [Plan; 7] {
    let (order, full) = (CellOrder::Sheet, [512, 698]);
    [
        powers_1x1(CellOrder::Scattered, rng),
        powers_3x3(512, 698, order, rng),
        largest_4x4(order, rng),
        few_of_4x4(full, 1, order, rng),
        few_of_4x4(full, 2, order, rng),
        reversed_4x4(full, 1, order, rng),
        reversed_4x4(full, 2, order, rng),
    ]
}

/// The numbers of a plan of full size for bursts of at most t cells, but for t.
fn few(t: usize) -> Given {
    let [v, h] = polynomials_4x4(t);
    Given::new([512, 698, 4, 4], v, h)
}

/// Full size, with all numbers that come after the tables: made, 8, 9 and 16.
#[test]
fn stack_of_making() {
    let enough = constant("SHEET_PLAN_MAKE_STACK");
    for (given, number) in [
        (Given::new([512, 698, 1, 1], SINGLE, SINGLE), 0),
        (HOUSE, 0),
        (Given::new([512, 698, 3, 3], WIDE, WIDE), 0),
        (Given::new([8, 698, 4, 4], WIDE, H_4X4), 0),
        (Given::new([512, 698, 4, 4], WIDE, H_4X4), 8),
        (Given::new([8, 698, 4, 4], WIDE, H_3X3), 9),
        (Given::new([512, 698, 3, 3], V_EVEN, H_EVEN), 16),
        (Given { t: 1, ..few(1) }, 0),
        (Given { t: 2, ..few(2) }, 0),
        // The tables for bursts of at most one cell do not serve for such of two.
        (Given { t: 2, rv: few(1).rv, v_low: few(1).v_low, ..few(2) }, 8),
        (Given { t: 2, rh: few(1).rh, h_low: few(1).h_low, ..few(2) }, 9),
    ] {
        let len = given.plan_len();
        let (mut plan, mut expected) = (vec![0xff; len], vec![0xff; len]);
        let told = model::make(&given, &mut expected);
        assert_eq!(told.number, number, "{given:?}");
        let (answer, plan) = with_stack(enough, move || {
            let answer = plan_make(&given, &mut plan, false);
            (answer, plan)
        });
        assert_eq!(Answer::unpack(answer), told, "{given:?}");
        assert!(plan == expected, "{given:?}");
    }
}

/// The same stack is enough for the house plan, and for turning it back.
#[test]
fn stack_of_the_house_plan() {
    let enough = constant("SHEET_PLAN_MAKE_STACK");
    for (len, number) in [(HOUSE.plan_len(), 0), (HOUSE.plan_len() - 1, 5)] {
        let (mut plan, mut expected) = (vec![0xff; len], vec![0xff; len]);
        assert_eq!(model::house_plan(&mut expected).number, number);
        let (answer, plan) = with_stack(enough, move || {
            let answer = house_plan(&mut plan, false);
            (answer, plan)
        });
        assert!(answer == number && plan == expected, "{answer:#x} in {len}");
    }
}

#[test]
fn stack_of_the_plan_test() {
    let enough = constant("SHEET_PLAN_TEST_STACK");
    for plan in large_plans(&mut Rng::new(1)) {
        let bytes = plan.encode();
        assert_eq!(with_stack(enough, move || SHEET.plan_test(&bytes)), 0);
    }
}

/// Refused by the last pairs of windows and of strips that can be the first to fail, for bursts of few cells.
#[test]
fn stack_of_late_refusals() {
    let enough = constant("SHEET_PLAN_TEST_STACK");
    for t in [1, 2] {
        for (plan, told) in late_refusals(t, &mut Rng::new(12)) {
            let bytes = plan.encode();
            let answer = with_stack(enough, move || SHEET.plan_test(&bytes));
            assert_eq!(Answer::unpack(answer), told, "{t} cells");
        }
    }
}

/// Writing and reading sheets in this layout. The scan has a full burst in the last corner, where a search in sheet
/// order comes last.
fn writes_and_reads(layout: Layout, enough: usize, rng: &mut Rng) {
    let archive = Archive::of(layout);
    for plan in large_plans(rng) {
        let bytes = plan.encode();
        let data = random_data(&plan, rng);
        let by_rows = model::write_sheet(&plan, &data);
        let written = layout.of_rows(&plan, by_rows.clone());

        let (bytes_there, data_there, mut sheet) = (bytes.clone(), data.clone(), written.clone());
        sheet.fill(0xff);
        let (answer, sheet) = with_stack(enough, move || {
            (archive.write(&bytes_there, &data_there, &mut sheet), sheet)
        });
        assert!(answer == 0 && sheet == written);

        let cells = full_burst(&plan, plan.n1 - plan.b1, plan.n2 - plan.b2);
        let mut scan = layout.of_rows(&plan, turned(&plan, &by_rows, &cells));
        let mut into = vec![0xff; data.len()];
        let (answer, scan, into) =
            with_stack(enough, move || (archive.read(&bytes, &mut scan, &mut into), scan, into));
        assert_eq!(answer, model::smallest_rectangle(&cells).pack());
        assert!(scan == written && into == data);
    }
}

#[test]
fn stack_of_writing_and_reading() {
    writes_and_reads(Layout::Rows, constant("SHEET_WRITE_READ_STACK"), &mut Rng::new(2));
}

#[test]
fn stack_of_writing_and_reading_by_column() {
    writes_and_reads(Layout::Columns, constant("SHEET_BY_COLUMN_STACK"), &mut Rng::new(8));
}

/// Reading by trial. The scan has a full burst in the first rectangle, whose last pattern that is: to try them all
/// takes long at full size, but for bursts of one cell, where a sheet that no burst mends has it done.
#[test]
fn stack_of_reading_by_trial() {
    let enough = constant("SHEET_WRITE_READ_STACK");
    let mut rng = Rng::new(10);
    for plan in large_plans(&mut rng) {
        let written = model::write_sheet(&plan, &random_data(&plan, &mut rng));
        let mut scans = vec![(turned(&plan, &written, &full_burst(&plan, 0, 0)), 0)];
        if plan.b1 == 1 {
            scans.push((hopeless(&plan, &mut rng).expect("not every sheet can be mended"), 14));
        }
        for (mut scan, number) in scans {
            let (bytes, mut data) = (plan.encode(), vec![0xff; plan.data_len()]);
            let (mut expected, mut text) = (scan.clone(), data.clone());
            let told = model::read_accepted(&plan, &mut expected, &mut text);
            assert_eq!(told.number, number);
            let (answer, scan, data) = with_stack(enough, move || {
                (BY_TRIAL.read(&bytes, &mut scan, &mut data), scan, data)
            });
            assert_eq!(Answer::unpack(answer), told);
            assert!(scan == expected && data == text, "{number}");
        }
    }
}

/// The dark sheet turned either way, and one with an unused bit in its last line, if there is one. With 511 rows both
/// layouts have some.
#[test]
fn stack_of_turning() {
    let enough = constant("SHEET_TURN_STACK");
    let mut rng = Rng::new(9);
    let odd = powers_3x3(511, 698, CellOrder::Sheet, &mut rng);
    for plan in large_plans(&mut rng).into_iter().chain([odd]) {
        for from in Layout::BOTH {
            let good = from.of_rows(&plan, dark_sheet(&plan));
            let mut bad = good.clone();
            bad[from.sheet_len(&plan) - 1] |= 0x80;
            for source in [good, bad] {
                let bytes = plan.encode();
                let mut target = vec![0xaa; from.other().sheet_len(&plan)];
                let mut expected = target.clone();
                let told = model::turn_accepted(from, &plan, &source, &mut expected);
                let (answer, target) = with_stack(enough, move || {
                    let answer = turn(from, &bytes, &source, &mut target, false);
                    (answer, target)
                });
                assert_eq!(Answer::unpack(answer), told);
                assert!(target == expected, "from {from:?}");
            }
        }
    }
}

/// The whole sheet, dark in every cell; a run that goes past it; and a refusal by the last check.
#[test]
fn stack_of_the_sums() {
    let enough = constant("SHEET_SUMS_STACK");
    for plan in large_plans(&mut Rng::new(3)) {
        for (run, len, number) in [(whole(&plan), 8, 0), (1..u32::MAX, 8, 0), (0..1, 7, 24)] {
            let (bytes, sheet) = (plan.encode(), dark_sheet(&plan));
            let (mut into, mut expected) = (vec![0xff; len], vec![0xff; len]);
            let told = model::sums_accepted(&plan, &sheet, run.clone(), &mut expected);
            assert_eq!(told.number, number);
            let (answer, into) = with_stack(enough, move || {
                let answer = sums(&bytes, &sheet, run, &mut into, false);
                (answer, into)
            });
            assert!(answer == told.pack() && into == expected, "{answer:#x} in {len}");
        }
    }
}

/// The first position and the last, and refusals by the last two checks.
#[test]
fn stack_of_altering() {
    let enough = constant("SHEET_ALTER_STACK");
    let mut rng = Rng::new(4);
    for plan in large_plans(&mut rng) {
        let written = model::write_sheet(&plan, &random_data(&plan, &mut rng));
        let wrong = turned(&plan, &written, &[(plan.n1 - 1, plan.n2 - 1)]);
        let last = plan.data_bits() as u32 - 1;
        for (sheet, position, number) in
            [(&written, 0, 0), (&written, last, 0), (&wrong, last + 1, 17), (&wrong, last, 18)]
        {
            let (bytes, mut left, mut expected) = (plan.encode(), sheet.clone(), sheet.clone());
            let told = model::alter_accepted(&plan, &mut expected, position);
            assert_eq!(told.number, number);
            let (answer, left) = with_stack(enough, move || {
                let answer = alter(&bytes, &mut left, position, false);
                (answer, left)
            });
            assert!(answer == told.pack() && left == expected, "{answer:#x} at {position}");
        }
    }
}

/// A full burst in the last corner, none, and refusals by the last two checks.
#[test]
fn stack_of_putting_back() {
    let enough = constant("SHEET_PUT_BACK_STACK");
    for plan in large_plans(&mut Rng::new(11)) {
        let cells = full_burst(&plan, plan.n1 - plan.b1, plan.n2 - plan.b2);
        let last = model::smallest_rectangle(&cells).pack();
        let (good, mut bad) = (dark_sheet(&plan), dark_sheet(&plan));
        bad[plan.sheet_len() - 1] |= 0x80;
        for (sheet, answer, number) in
            [(&good, last, 0), (&good, 0, 0), (&good, last | 1 << 63, 22), (&bad, last, 13)]
        {
            let (bytes, mut left, mut expected) = (plan.encode(), sheet.clone(), sheet.clone());
            let told = model::put_back_accepted(&plan, &mut expected, answer);
            assert_eq!(told.number, number);
            let (by_call, left) = with_stack(enough, move || {
                let by_call = put_back(&bytes, &mut left, answer, false);
                (by_call, left)
            });
            assert!(by_call == told.pack() && left == expected, "{by_call:#x}, not {number}");
        }
    }
}

/// A full burst in the last corner of each scan, and refusals by the last two checks.
#[test]
fn stack_of_reading_two() {
    let enough = constant("SHEET_READ_TWO_STACK");
    let mut rng = Rng::new(5);
    for plan in large_plans(&mut rng) {
        let [written, other] =
            [(); 2].map(|()| model::write_sheet(&plan, &random_data(&plan, &mut rng)));
        let cells = full_burst(&plan, plan.n1 - plan.b1, plan.n2 - plan.b2);
        let scan = turned(&plan, &written, &cells);
        let lost = hopeless(&plan, &mut rng).expect("not every sheet can be mended");
        for (first, second, number) in [
            (&scan, &scan, 0),
            (&lost, &scan, 0),
            (&scan, &lost, 0),
            (&lost, &lost, 14),
            (&scan, &other, 19),
        ] {
            let (bytes, first, second) = (plan.encode(), first.clone(), second.clone());
            let (mut data, mut expected) =
                (vec![0xff; plan.data_len()], vec![0xff; plan.data_len()]);
            let told = model::read_two_accepted(&plan, &first, &second, &mut expected);
            assert_eq!(told.number, number);
            let (answer, data) = with_stack(enough, move || {
                let answer = read_two(&bytes, &first, &second, &mut data, false);
                (answer, data)
            });
            assert!(answer == told.pack() && data == expected, "{answer:#x}, not {number}");
        }
    }
}

/// Scans that differ in the last cell alone, and scans that do not differ.
#[test]
fn stack_of_the_difference() {
    let enough = constant("SHEET_DIFFERENCE_STACK");
    for plan in large_plans(&mut Rng::new(6)) {
        let first = dark_sheet(&plan);
        let last = turned(&plan, &first, &[(plan.n1 - 1, plan.n2 - 1)]);
        let told = difference_of(&row_places(&plan, plan.n1 - 1));
        for (second, told) in [(last, told), (first.clone(), 0)] {
            let (bytes, first) = (plan.encode(), first.clone());
            let difference =
                with_stack(enough, move || first_difference(&bytes, &first, &second, false));
            assert_eq!(difference, told);
        }
    }
}

/// As many sheets as a stack can have, in turns: a full burst in the last corner, refused by each of the last two
/// checks, and as written; and a stack that is turned back.
#[test]
fn stack_of_reading_stacks() {
    let enough = constant("SHEET_READ_STACK_STACK");
    let mut rng = Rng::new(7);
    for plan in large_plans(&mut rng) {
        let written = model::write_sheet(&plan, &random_data(&plan, &mut rng));
        let cells = full_burst(&plan, plan.n1 - plan.b1, plan.n2 - plan.b2);
        let scan = turned(&plan, &written, &cells);
        let lost = hopeless(&plan, &mut rng).expect("not every sheet can be mended");
        let mut spoilt = written.clone();
        spoilt[plan.sheet_len() - 1] |= 0x80;
        let four = [scan, lost, spoilt, written];
        let sheets: Vec<_> = four.iter().cycle().take(64).cloned().collect();
        let good = Lent::new(&plan, &[0, 1, 1, 0].repeat(16), &sheets, &mut rng);
        let mut bad = good.clone();
        bad.stack[0] = 63;
        for (lent, number) in [(good, 0), (bad, 20)] {
            let (bytes, mut expected) = (plan.encode(), lent.clone());
            let Lent { stack, numbers, data } = &mut expected;
            let told = model::read_stack_accepted(&plan, stack, numbers, data);
            assert_eq!(told.number, number);
            let (answer, left) = with_stack(enough, move || {
                let Lent { mut stack, mut numbers, mut data } = lent;
                let answer = read_stack(&bytes, &mut stack, &mut numbers, &mut data, false);
                (answer, Lent { stack, numbers, data })
            });
            assert!(answer == told.pack() && left == expected, "{answer:#x}, not {number}");
            if number == 0 {
                let told = |sheet| told_of(&left.numbers, sheet).number;
                assert!((0..64).all(|sheet| told(sheet) == [0, 14, 13, 0][sheet % 4]));
            }
        }
    }
}

//! The model of 02's requests e to j tested by itself: sums of runs, alterations, two scans, stacks, sheets by columns,
//! reading by trial. Nothing here calls the library (`cargo test --no-default-features --test requests`).

use std::collections::BTreeSet;

use sheet_tests::answer::Answer;
use sheet_tests::cases::{
    alter_cases, column_cases, column_read_cases, plan_s, plan_t, plan_tall, plan_two_rows,
    run_cases, stack_cases, two_cases,
};
use sheet_tests::kinds::{sheet_of, KINDS};
use sheet_tests::make::{accepted, burst_sizes, least_1x1, no_data, CellOrder};
use sheet_tests::model::{self, Cell, Layout};
use sheet_tests::pairs::row_places;
use sheet_tests::plan::Plan;
use sheet_tests::positions::differing_data_cells;
use sheet_tests::rng::Rng;
use sheet_tests::runs::{joined, random_end, whole};
use sheet_tests::scans::{every_sheet, random_sheet, turned};
use sheet_tests::stacks::{bad_stacks, random_rooms, random_sheets, stack_of, Lent};
use sheet_tests::tally::Tally;
use sheet_tests::trials::{small, trial_cases};

/// Sums of runs worked out by hand. The plan that is not of 01 is accepted.
#[test]
fn worked_runs() {
    assert_eq!(model::test_plan(&plan_two_rows().encode()), Answer::default());
    for (plan, sheet, runs) in run_cases() {
        for (run, expected) in runs {
            assert_eq!(model::run_sums(&plan, &sheet, run.clone()), expected, "{run:?}");
        }
    }
}

/// 02 e): the whole sheet is the run from 0 to n1; and for a at most b at most c the sums of a to b and b
/// to c combine to those of a to c.
#[test]
fn runs_of_rows() {
    let mut rng = Rng::new(17);
    for (b1, b2) in burst_sizes() {
        let plan = accepted(&mut rng, b1, b2, 9);
        for _ in 0..50 {
            let sheet = random_sheet(&plan, &mut rng);
            let (v, h) = model::run_sums(&plan, &sheet, whole(&plan));
            assert_eq!(u64::from(v) | u64::from(h) << plan.rv, model::syndrome(&plan, &sheet));
            let mut ends = [(); 3].map(|()| random_end(&plan, &mut rng));
            ends.sort();
            let [a, b, c] = ends;
            let [left, right, both] =
                [a..b, b..c, a..c].map(|run| model::run_sums(&plan, &sheet, run));
            assert_eq!(joined(left, right), both, "{ends:?}");
        }
    }
}

/// Alterations worked out by hand, each from the light sheet.
#[test]
fn worked_alterations() {
    for (plan, turned_over) in alter_cases() {
        for (position, expected) in turned_over.into_iter().enumerate() {
            let mut sheet = vec![0; plan.sheet_len()];
            let answer = model::alter(&plan.encode(), &mut sheet, position as u32);
            assert_eq!((answer, sheet), (Answer::default(), expected), "position {position}");
        }
    }
}

/// 02 f), by the bare definitions: of all sheets, an alteration leaves the only one that belongs and
/// differs, of the cells that are not check cells, in that of the position alone.
#[test]
fn one_stitch_altered() {
    for plan in [plan_s(), plan_t(), plan_two_rows()] {
        let belongs = |sheet: &Vec<u8>| model::syndrome(&plan, sheet) == 0;
        let belonging: Vec<_> = every_sheet(&plan).filter(belongs).collect();
        for sheet in &belonging {
            for (position, cell) in model::data_cells(&plan).enumerate() {
                let only = |left: &&Vec<u8>| differing_data_cells(&plan, sheet, left) == [cell];
                let expected: Vec<_> = belonging.iter().filter(only).collect();
                let mut left = sheet.clone();
                let answer = model::alter_accepted(&plan, &mut left, position as u32);
                assert_eq!((answer, vec![&left]), (Answer::default(), expected));
            }
        }
    }
}

/// Pairs of scans worked out by hand.
#[test]
fn worked_pairs() {
    for (plan, [first, second], read, row) in two_cases() {
        let mut data = [0xaa];
        let answer = model::read_two(&plan.encode(), &first, &second, &mut data);
        assert_eq!(
            answer,
            Answer::refusal(read.err().unwrap_or(0), 0, 0),
            "{first:x?} {second:x?}"
        );
        assert_eq!(data, [read.unwrap_or(0xaa)], "{first:x?} {second:x?}");
        let expected = row.map_or(0..0, |row| row_places(&plan, row));
        assert_eq!(model::first_difference(&plan.encode(), &first, &second), expected);
    }
}

/// 02 g), by the bare definitions, for all pairs of sheets of the smallest plans: of the sheets that belong,
/// those that a burst leads to, by trial; from these the data. And the first row of bytes that differ.
#[test]
fn two_heads() {
    for plan in [plan_t(), plan_two_rows(), no_data()] {
        let mended = |scan: Vec<u8>| {
            let burst = model::burst_by_trial(&plan, &scan);
            let data = burst.map(|cells| model::data_of(&plan, &turned(&plan, &scan, &cells)));
            (scan, data)
        };
        let scans: Vec<_> = every_sheet(&plan).map(mended).collect();
        for (first, one) in &scans {
            for (second, other) in &scans {
                let given: BTreeSet<_> = one.iter().chain(other).cloned().collect();
                let given: Vec<_> = given.into_iter().collect();
                let mut data = vec![0xaa; plan.data_len()];
                let answer = model::read_two_accepted(&plan, first, second, &mut data);
                assert_eq!(answer, Answer::refusal([14, 0, 19][given.len()], 0, 0));
                let held = vec![0xaa; plan.data_len()];
                assert_eq!(data, if given.len() == 1 { given[0].clone() } else { held });

                let row = (0..plan.n1).find(|&row| {
                    let places = row_places(&plan, row);
                    first[places.clone()] != second[places]
                });
                let expected = row.map_or(0..0, |row| row_places(&plan, row));
                assert_eq!(model::first_difference_accepted(&plan, first, second), expected);
            }
        }
    }
}

/// Stacks worked out by hand.
#[test]
fn worked_stacks() {
    for (plan, before, after) in stack_cases() {
        let [mut stack, mut numbers, mut data] = before;
        let answer = model::read_stack(&plan.encode(), &mut stack, &mut numbers, &mut data);
        assert_eq!((answer, [stack, numbers, data]), (Answer::default(), after));
    }
}

/// 02 h), by the bare definitions: a stack is good exactly if it is the one that is built from its count, the lowest
/// bits of its rooms, and its sheets.
#[test]
fn headers_of_stacks() {
    let mut rng = Rng::new(21);
    let (mut good, mut bad) = (0, 0);
    for plan in [plan_s(), plan_t(), no_data(), accepted(&mut rng, 2, 3, 9)] {
        for count in [0, 1, 2, 3, 17, 64, 65] {
            let rooms = random_rooms(count, &mut rng);
            let stack = stack_of(&plan, &rooms, &random_sheets(&plan, count, &mut rng));
            let altered = bad_stacks(&plan, &stack).into_iter().map(|(_, altered)| altered);
            for stack in altered.chain([stack.clone()]) {
                let places = model::sheet_places(&plan, &stack);
                let header =
                    stack.get(..2).map(|two| usize::from(two[0]) + 256 * usize::from(two[1]));
                let is_good = header.filter(|&count| count <= 64).is_some_and(|count| {
                    let end = (2 + 6 * count).min(stack.len());
                    let rooms = stack[2..end].chunks(6).map(|entry| u16::from(entry[0] & 1));
                    let sheets = vec![stack[end..].to_vec()];
                    stack.len() == end + count * plan.sheet_len()
                        && stack == stack_of(&plan, &rooms.collect::<Vec<_>>(), &sheets)
                });
                assert_eq!(places.is_some(), is_good, "{stack:x?}");
                let places = places.unwrap_or_default();
                let sheets: Vec<u8> =
                    places.iter().flat_map(|at| stack[at.clone()].to_vec()).collect();
                assert!(!is_good || stack[stack.len() - sheets.len()..] == sheets);
                (good, bad) = (good + usize::from(is_good), bad + usize::from(!is_good));
            }
        }
    }
    println!("{good} good stacks and {bad} others");
    assert!(good == 24 && bad >= 1500);
}

/// 02 h), by the bare definitions: a burst that fits, by trial; its cells turned over, and the data from these.
#[test]
fn sheets_of_stacks() {
    let mut rng = Rng::new(22);
    for plan in [plan_s(), plan_t(), plan_two_rows(), no_data()] {
        for sheets in every_sheet(&plan).collect::<Vec<_>>().chunks(32) {
            let rooms = random_rooms(sheets.len(), &mut rng);
            let mut lent = Lent::new(&plan, &rooms, sheets, &mut rng);
            let (mut expected, mut numbers) = (lent.clone(), vec![]);
            expected.stack.truncate(2 + 6 * sheets.len());
            for (at, sheet) in sheets.iter().enumerate() {
                let burst = model::burst_by_trial(&plan, sheet);
                let mended = turned(&plan, sheet, burst.as_deref().unwrap_or(&[]));
                expected.stack.extend(&mended);
                let told = burst.as_deref().map(model::smallest_rectangle);
                if told.is_some() {
                    let place = at * plan.data_len()..(at + 1) * plan.data_len();
                    expected.data[place].copy_from_slice(&model::data_of(&plan, &mended));
                }
                let fields = told.unwrap_or(Answer::refusal(14, 0, 0)).fields();
                numbers.extend(fields.map(|field| field as u16));
            }
            expected.numbers = numbers.into_iter().flat_map(u16::to_le_bytes).collect();
            let Lent { stack, numbers, data } = &mut lent;
            assert_eq!(model::read_stack_accepted(&plan, stack, numbers, data), Answer::default());
            assert_eq!(lent, expected);
        }
    }
}

/// Sheets by columns worked out by hand. The plans that are not of 01 are accepted.
#[test]
fn worked_columns() {
    assert_eq!(model::test_plan(&plan_tall().encode()), Answer::default());
    for (plan, data, rows, columns) in column_cases() {
        let bytes = plan.encode();
        let mut sheet = vec![0xaa; columns.len()];
        assert_eq!(model::write_by_column(&bytes, &data, &mut sheet), Answer::default());
        assert_eq!(sheet, columns);
        for (from, source, target) in
            [(Layout::Rows, &rows, &columns), (Layout::Columns, &columns, &rows)]
        {
            let mut into = vec![0xaa; target.len()];
            assert_eq!(model::turn(from, &bytes, source, &mut into), Answer::default());
            assert_eq!(into, *target);
        }
    }
    for (plan, mut sheet, expected) in column_read_cases() {
        let mut data = vec![0xaa; plan.data_len()];
        let answer = model::read_by_column(&plan.encode(), &mut sheet, &mut data);
        match expected {
            Some((numbers, mended, text)) => {
                assert_eq!((answer.number, answer.mended()), (0, numbers));
                assert_eq!((sheet, data), (mended, text));
            }
            None => assert_eq!(answer, Answer::refusal(14, 0, 0)),
        }
    }
}

/// 02 i), by the bare definition: the dark cells of a sheet by columns. Bit b of byte a of column j's bytes is row
/// 8 a + b.
fn dark_cells(plan: &Plan, columns: &[u8]) -> BTreeSet<Cell> {
    let of_column = plan.n1.div_ceil(8);
    assert_eq!(columns.len(), plan.n2 * of_column);
    let bits = (0..8 * columns.len()).filter(|bit| columns[bit / 8] >> (bit % 8) & 1 == 1);
    bits.map(|bit| (bit % (8 * of_column), bit / (8 * of_column))).collect()
}

/// Sheets of many sizes turned: the dark cells are the same, and all are on the sheet; back again, so are the bytes.
/// Plans of every size have been accepted for it.
#[test]
fn turned_cell_for_cell() {
    let mut rng = Rng::new(24);
    let mut plans: Vec<_> = burst_sizes().map(|(b1, b2)| accepted(&mut rng, b1, b2, 20)).collect();
    for (n1, n2) in [(1, 2), (1, 17), (3, 1), (17, 1), (8, 8), (7, 9), (9, 7), (64, 33), (33, 64)] {
        plans.push(least_1x1(n1, n2, CellOrder::Scattered, &mut rng));
    }
    for plan in plans {
        assert_eq!(model::test_plan(&plan.encode()), Answer::default());
        for _ in 0..20 {
            let sheet = random_sheet(&plan, &mut rng);
            let mut columns = rng.bytes(plan.n2 * plan.n1.div_ceil(8));
            let there = model::turn_accepted(Layout::Rows, &plan, &sheet, &mut columns);
            let dark = model::cells(&plan).filter(|&at| model::cell(&plan, &sheet, at)).collect();
            assert_eq!((there, dark_cells(&plan, &columns)), (Answer::default(), dark));
            let mut back = rng.bytes(sheet.len());
            let told = model::turn_accepted(Layout::Columns, &plan, &columns, &mut back);
            assert_eq!((told, back), (Answer::default(), sheet));
        }
    }
}

/// 02 i), by the bare definitions, for all sheets by columns of the smallest plans: of those that have both sums 0, the
/// one that is written holds the data in the cells that are not check cells; and a sheet is mended to the one that
/// differs from it in cells of one rectangle of the plan's size.
#[test]
fn along_the_columns() {
    for plan in [plan_s(), plan_t(), plan_two_rows(), no_data()] {
        let all: Vec<_> =
            every_sheet(&plan).map(|sheet| model::by_columns(&plan, &sheet)).collect();
        let dark: BTreeSet<_> = all.iter().map(|sheet| dark_cells(&plan, sheet)).collect();
        assert_eq!(dark.len(), 1 << (plan.n1 * plan.n2));
        let sum = |sheet: &[u8]| {
            dark_cells(&plan, sheet).iter().fold(0, |sum, &(i, j)| sum ^ plan.joint(i, j))
        };
        let belonging: Vec<_> = all.iter().filter(|sheet| sum(sheet) == 0).collect();
        assert_eq!(belonging.len(), 1 << plan.data_bits());
        let held = |sheet: &[u8]| {
            let mut data = vec![0; plan.data_len()];
            for (bit, cell) in model::data_cells(&plan).enumerate() {
                data[bit / 8] |= u8::from(dark_cells(&plan, sheet).contains(&cell)) << (bit % 8);
            }
            data
        };
        for sheet in &belonging {
            let mut written = vec![0xaa; sheet.len()];
            model::write_by_column_accepted(&plan, &held(sheet), &mut written);
            assert_eq!(written, **sheet);
        }
        for sheet in &all {
            let turned_over = |other: &[u8]| -> Vec<Cell> {
                let [one, other] = [sheet, other].map(|sheet| dark_cells(&plan, sheet));
                one.symmetric_difference(&other).copied().collect()
            };
            let told = |other: &[u8]| model::smallest_rectangle(&turned_over(other));
            let [height, width] = [plan.b1, plan.b2].map(|size| size as u64);
            let fits =
                |other: &&&Vec<u8>| told(other).height <= height && told(other).width <= width;
            let mended: Vec<_> = belonging.iter().filter(fits).collect();
            let (mut left, mut data) = (sheet.clone(), vec![0xaa; plan.data_len()]);
            let answer = model::read_by_column_accepted(&plan, &mut left, &mut data);
            match mended[..] {
                [] => assert_eq!((answer, &left), (Answer::refusal(14, 0, 0), sheet)),
                [one] => assert_eq!((answer, &left, data), (told(one), *one, held(one))),
                _ => panic!("two sheets that belong are one burst away"),
            }
        }
    }
}

/// Sheets worked out by hand, read by trial.
#[test]
fn worked_trials() {
    for (plan, before, expected) in trial_cases() {
        let (mut sheet, mut data) = (before.clone(), vec![0xaa; plan.data_len()]);
        let answer = model::read_by_trial(&plan.encode(), &mut sheet, &mut data);
        match expected {
            Some((numbers, mended, text)) => {
                assert_eq!((answer.places(), answer.mended()), ((0, 0, 0), numbers));
                assert_eq!((sheet, data), (mended, text));
            }
            None => assert_eq!((answer, sheet), (Answer::refusal(14, 0, 0), before)),
        }
    }
}

/// 02 j): the trial gives the usual reader's answers and bytes, and finds the same cells as the trial that knows how
/// sums change: for all sheets of the smallest plans, and for sheets of every kind under others.
#[test]
fn tried_as_read() {
    let mut rng = Rng::new(26);
    let mut sheets: Vec<_> = [plan_s(), plan_t(), plan_two_rows(), no_data()]
        .into_iter()
        .map(|plan| (plan.clone(), every_sheet(&plan).collect::<Vec<_>>()))
        .collect();
    for (b1, b2) in burst_sizes().filter(|(b1, b2)| b1 * b2 <= 9) {
        for _ in 0..4 {
            let plan = small(&mut rng, b1, b2);
            let of_each_kind = KINDS.map(|kind| sheet_of(&plan, kind, &mut rng)).to_vec();
            sheets.push((plan, of_each_kind));
        }
    }
    let mut tally = Tally::default();
    for (plan, sheet) in sheets.iter().flat_map(|(plan, of)| of.iter().map(move |one| (plan, one)))
    {
        let [mut tried, mut read] = [(); 2].map(|()| [sheet.clone(), vec![0xaa; plan.data_len()]]);
        let [left, data] = &mut tried;
        let answer = model::read_by_trial_accepted(plan, left, data);
        let [left, data] = &mut read;
        assert_eq!(answer, model::read_accepted(plan, left, data));
        assert_eq!(tried, read);
        assert!(
            answer.number == 13
                || model::burst_tried(plan, sheet) == model::burst_by_trial(plan, sheet)
        );
        tally.count(answer.pack());
    }
    tally.require("the model's trial", &[(0..=0, 450), (13..=13, 40), (14..=14, 450)]);
}

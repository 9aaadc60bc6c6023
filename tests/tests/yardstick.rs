//! The Rust that the library is timed against, beside the model.
//! Nothing here calls the library.

use sheet_tests::damage::{alter_length, damaged, set_unused_of_data, set_unused_of_sheet};
use sheet_tests::kinds::{sheet_in, KINDS};
use sheet_tests::make::{accepted, burst_sizes};
use sheet_tests::model::{self, Layout};
use sheet_tests::plan::Plan;
use sheet_tests::positions::random_position;
use sheet_tests::puts::{every_small_answer, near_misses, random_answer, spoilt_answer};
use sheet_tests::rng::Rng;
use sheet_tests::runs::random_run;
use sheet_tests::scans::{random_burst, random_data, random_sheet, turned};
use sheet_tests::sparse::{far_refusals, late_refusals, tight};
use sheet_tests::stacks::{bad_stacks, random_rooms, told_of, Lent};
use sheet_tests::tables::{
    from_another, of_powers, of_two_polynomials, random, shifted, small_plan, with_entry_changed,
    without_inverse, zeros, Table,
};
use sheet_tests::tally::Tally;
use sheet_tests::trials::small;
use sheet_tests::yardstick;

/// The plan test, writing and reading give the model's answers.
#[test]
fn yardsticks_agree() {
    let mut rng = Rng::new(9);
    for (b1, b2) in burst_sizes() {
        for _ in 0..20 {
            let plan = accepted(&mut rng, b1, b2, 10);
            for _ in 0..10 {
                let bytes = damaged(&plan, &mut rng);
                let answer = model::test_plan(&bytes).pack();
                assert_eq!(yardstick::plain_plan_test(&bytes), answer);
                assert_eq!(yardstick::best_plan_test(&bytes), answer);
            }
            let text = random_data(&plan, &mut rng);
            let mut sheet = rng.bytes(plan.sheet_len());
            yardstick::write_accepted(&plan, &text, &mut sheet);
            assert_eq!(sheet, model::write_sheet(&plan, &text));
            for bursts in 0..=2 {
                let burst = |_| random_burst(&plan, &mut rng);
                let cells: Vec<_> = (0..bursts).flat_map(burst).collect();
                let scan = turned(&plan, &sheet, &cells);
                let (mut mended, mut data) = (scan.clone(), rng.bytes(text.len()));
                let (mut mended2, mut data2) = (scan.clone(), data.clone());
                let answer = model::read_accepted(&plan, &mut mended, &mut data);
                assert_eq!(yardstick::read_accepted(&plan, &mut mended2, &mut data2), answer);
                assert_eq!((mended2, data2), (mended, data));
            }
        }
    }
}

/// The plan test for few cells, which knows a table of powers by its look: tables of powers and such as are
/// nearly so, random ones, each for t of 1 and 2 and with one entry changed; tight ones; and refusals of
/// full size.
#[test]
fn yardstick_of_few_cells_agrees() {
    let mut rng = Rng::new(68);
    let mut tally = Tally::default();
    let mut compare = |plan: &Plan| {
        let bytes = plan.encode();
        let told = model::test_plan(&bytes).pack();
        assert_eq!(yardstick::sparse_plan_test(&bytes), told, "{plan:?}");
        assert_eq!(yardstick::plain_plan_test(&bytes), told, "{plan:?}");
        tally.count(told);
    };
    let kinds: [Table; 7] =
        [of_powers, random, without_inverse, from_another, zeros, of_two_polynomials, shifted];
    for (b1, b2) in burst_sizes() {
        for t in [1, 2] {
            for (v, h) in kinds
                .map(|v| (v, of_powers as Table))
                .into_iter()
                .chain(kinds.map(|h| (of_powers as Table, h)))
            {
                for _ in 0..12 {
                    let plan = small_plan(&mut rng, [b1, b2, t], v, h);
                    compare(&plan);
                    let at = rng.below(plan.v.len() + plan.h.len());
                    compare(&with_entry_changed(&plan, at, &mut rng));
                }
            }
            if let Some(plan) = tight(&mut rng, [b1 + 5, b2 + 5, b1, b2], t) {
                compare(&plan);
                let at = rng.below(plan.v.len() + plan.h.len());
                compare(&with_entry_changed(&plan, at, &mut rng));
            }
        }
    }
    for (plan, told) in far_refusals().into_iter().chain(late_refusals(2, &mut rng)) {
        assert_eq!(yardstick::sparse_plan_test(&plan.encode()), told.pack());
        compare(&plan);
    }
    tally.require("plain plan test, few cells", &[(0..=0, 1000), (8..=10, 1000)]);
}

/// So do the sums of runs, under good and damaged plans, with right and wrong buffers.
#[test]
fn yardstick_of_the_sums_agrees() {
    let mut rng = Rng::new(18);
    for (b1, b2) in burst_sizes() {
        for _ in 0..20 {
            let plan = accepted(&mut rng, b1, b2, 10);
            for _ in 0..20 {
                let bytes = if rng.one_in(4) { damaged(&plan, &mut rng) } else { plan.encode() };
                let mut sheet = random_sheet(&plan, &mut rng);
                if rng.one_in(4) {
                    set_unused_of_sheet(&plan, &mut sheet, &mut rng);
                }
                if rng.one_in(4) {
                    alter_length(&mut sheet, &mut rng);
                }
                let sums_len = if rng.one_in(4) { 7 } else { 8 };
                let mut sums = rng.bytes(sums_len);
                let mut sums2 = sums.clone();
                let run = random_run(&plan, &mut rng);
                let answer = model::sums(&bytes, &sheet, run.clone(), &mut sums);
                assert_eq!(yardstick::plain_sums(&bytes, &sheet, run, &mut sums2), answer.pack());
                assert_eq!(sums2, sums);
            }
        }
    }
}

/// So do alterations: good and damaged plans, sheets that belong and others.
#[test]
fn yardstick_of_altering_agrees() {
    let mut rng = Rng::new(19);
    let mut tally = Tally::default();
    for (b1, b2) in burst_sizes() {
        for _ in 0..20 {
            let plan = accepted(&mut rng, b1, b2, 10);
            let written = model::write_sheet(&plan, &random_data(&plan, &mut rng));
            for _ in 0..20 {
                let bytes = if rng.one_in(4) { damaged(&plan, &mut rng) } else { plan.encode() };
                let burst = if rng.one_in(4) { random_burst(&plan, &mut rng) } else { vec![] };
                let mut sheet = turned(&plan, &written, &burst);
                if rng.one_in(8) {
                    set_unused_of_sheet(&plan, &mut sheet, &mut rng);
                }
                if rng.one_in(8) {
                    alter_length(&mut sheet, &mut rng);
                }
                let (mut left, mut expected) = (sheet.clone(), sheet);
                let position = random_position(&plan, &mut rng);
                let answer = model::alter(&bytes, &mut expected, position).pack();
                assert_eq!(yardstick::plain_alter(&bytes, &mut left, position), answer);
                assert_eq!(left, expected, "position {position}");
                tally.count(answer);
            }
        }
    }
    tally.require(
        "plain altering",
        &[(0..=0, 1000), (11..=11, 100), (13..=13, 100), (17..=18, 100)],
    );
}

/// So does putting back: good and damaged plans, sheets of every kind, answers of bursts and others.
#[test]
fn yardstick_of_putting_back_agrees() {
    let mut rng = Rng::new(32);
    let mut tally = Tally::default();
    for (b1, b2) in burst_sizes() {
        for _ in 0..20 {
            let plan = accepted(&mut rng, b1, b2, 10);
            let mut answers: Vec<_> = near_misses(&plan).into_iter().map(|(_, one)| one).collect();
            if b1 * b2 == 1 && plan.n1 * plan.n2 <= 64 {
                answers.extend(every_small_answer(&plan));
            }
            answers.extend((0..40).map(|_| random_answer(&plan, &mut rng)));
            answers.extend((0..40).map(|_| {
                let good = random_answer(&plan, &mut rng);
                spoilt_answer(&plan, good, &mut rng)
            }));
            for answer in answers {
                let bytes = if rng.one_in(8) { damaged(&plan, &mut rng) } else { plan.encode() };
                let mut sheet = random_sheet(&plan, &mut rng);
                if rng.one_in(16) {
                    set_unused_of_sheet(&plan, &mut sheet, &mut rng);
                }
                if rng.one_in(16) {
                    alter_length(&mut sheet, &mut rng);
                }
                let (mut left, mut expected) = (sheet.clone(), sheet);
                let told = model::put_back(&bytes, &mut expected, answer).pack();
                assert_eq!(yardstick::plain_put_back(&bytes, &mut left, answer), told);
                assert_eq!(left, expected, "{answer:#x}");
                tally.count(told);
            }
        }
    }
    let least = [(0..=0, 8000), (11..=11, 1000), (13..=13, 1000), (22..=22, 50_000)];
    tally.require("plain putting back", &least);
}

/// So does the reading of two scans, and where they first differ: good and damaged plans, scans of one sheet
/// and of two, with bursts and random, with right and wrong buffers.
#[test]
fn yardstick_of_two_scans_agrees() {
    let mut rng = Rng::new(20);
    let (mut tally, mut rows) = (Tally::default(), 0);
    for (b1, b2) in burst_sizes() {
        for _ in 0..20 {
            let plan = accepted(&mut rng, b1, b2, 10);
            let sheets = [(); 2].map(|()| model::write_sheet(&plan, &random_data(&plan, &mut rng)));
            for _ in 0..30 {
                let bytes = if rng.one_in(6) { damaged(&plan, &mut rng) } else { plan.encode() };
                let [first, second] = [(); 2].map(|()| {
                    let written = &sheets[usize::from(rng.one_in(4))];
                    let mut scan = turned(&plan, written, &random_burst(&plan, &mut rng));
                    if rng.one_in(4) {
                        scan = random_sheet(&plan, &mut rng);
                    }
                    if rng.one_in(12) {
                        set_unused_of_sheet(&plan, &mut scan, &mut rng);
                    }
                    if rng.one_in(12) {
                        alter_length(&mut scan, &mut rng);
                    }
                    scan
                });
                let mut data = rng.bytes(plan.data_len());
                if rng.one_in(12) {
                    alter_length(&mut data, &mut rng);
                }
                let mut expected = data.clone();
                let answer = model::read_two(&bytes, &first, &second, &mut expected).pack();
                let plain = yardstick::plain_read_two(&bytes, &first, &second, &mut data);
                assert_eq!((plain, data), (answer, expected));
                tally.count(answer);
                let row = model::first_difference(&bytes, &first, &second);
                assert_eq!(yardstick::plain_first_difference(&bytes, &first, &second), row);
                rows += usize::from(!row.is_empty());
            }
        }
    }
    println!("{rows} rows that differ");
    assert!(rows >= 1000);
    let least = [(0..=0, 1000), (11..=14, 100), (19..=19, 100)];
    tally.require("plain reading of two scans", &least);
}

/// So does the reading of stacks: good and damaged plans, good and bad stacks, sheets of every kind, buffers of right
/// and wrong lengths.
#[test]
fn yardstick_of_stacks_agrees() {
    let mut rng = Rng::new(23);
    let (mut tally, mut of_sheets) = (Tally::default(), Tally::default());
    for (b1, b2) in burst_sizes() {
        for _ in 0..20 {
            let plan = accepted(&mut rng, b1, b2, 10);
            for _ in 0..10 {
                let bytes = if rng.one_in(6) { damaged(&plan, &mut rng) } else { plan.encode() };
                let count = rng.below(6);
                let rooms = random_rooms(count, &mut rng);
                let mut lent = Lent::random(&plan, &rooms, &mut rng);
                if rng.one_in(6) {
                    let bad = bad_stacks(&plan, &lent.stack);
                    lent.stack = bad[rng.below(bad.len())].1.clone();
                }
                for buffer in [&mut lent.numbers, &mut lent.data] {
                    if rng.one_in(8) {
                        alter_length(buffer, &mut rng);
                    }
                }
                let mut expected = lent.clone();
                let Lent { stack, numbers, data } = &mut expected;
                let answer = model::read_stack(&bytes, stack, numbers, data).pack();
                let Lent { stack, numbers, data } = &mut lent;
                assert_eq!(yardstick::plain_read_stack(&bytes, stack, numbers, data), answer);
                assert_eq!(lent, expected);
                tally.count(answer);
                for sheet in (0..count).filter(|_| answer == 0) {
                    of_sheets.count(told_of(&lent.numbers, sheet).pack());
                }
            }
        }
    }
    tally.require("plain reading of stacks", &[(0..=0, 1000), (12..=12, 50), (20..=21, 100)]);
    of_sheets.require("their sheets", &[(0..=0, 1000), (13..=14, 500)]);
}

/// So do writing and reading by columns, and turning either way: good and damaged plans, sheets of every kind, buffers
/// of right and wrong lengths.
#[test]
fn yardstick_of_columns_agrees() {
    let mut rng = Rng::new(25);
    let [mut writes, mut reads, mut turns] = [(); 3].map(|()| Tally::default());
    for (b1, b2) in burst_sizes() {
        for _ in 0..20 {
            let plan = accepted(&mut rng, b1, b2, 20);
            for _ in 0..20 {
                let bytes = if rng.one_in(6) { damaged(&plan, &mut rng) } else { plan.encode() };
                let [mut rows, mut columns] =
                    Layout::BOTH.map(|layout| sheet_in(layout, &plan, rng.pick(&KINDS), &mut rng));
                let mut data = random_data(&plan, &mut rng);
                if rng.one_in(8) {
                    set_unused_of_data(&plan, &mut data, &mut rng);
                }
                for buffer in [&mut rows, &mut columns, &mut data] {
                    if rng.one_in(10) {
                        alter_length(buffer, &mut rng);
                    }
                }
                for (from, source, target) in
                    [(Layout::Rows, &rows, &columns), (Layout::Columns, &columns, &rows)]
                {
                    let (mut into, mut expected) = (target.clone(), target.clone());
                    let answer = model::turn(from, &bytes, source, &mut expected).pack();
                    let plain = yardstick::plain_turn(from, &bytes, source, &mut into);
                    assert_eq!((plain, into), (answer, expected));
                    turns.count(answer);
                }
                let (mut sheet, mut expected) = (columns.clone(), columns.clone());
                let answer = model::write_by_column(&bytes, &data, &mut expected).pack();
                let plain = yardstick::plain_write_by_column(&bytes, &data, &mut sheet);
                assert_eq!((plain, sheet), (answer, expected));
                writes.count(answer);
                let (mut sheet, mut expected) = (columns.clone(), columns);
                let (mut text, mut expected_text) = (data.clone(), data);
                let answer = model::read_by_column(&bytes, &mut expected, &mut expected_text);
                let plain = yardstick::plain_read_by_column(&bytes, &mut sheet, &mut text);
                assert_eq!((plain, sheet, text), (answer.pack(), expected, expected_text));
                reads.count(plain);
            }
        }
    }
    writes.require("plain writing by columns", &[(0..=0, 1000), (11..=13, 100)]);
    reads.require("plain reading by columns", &[(0..=0, 1000), (11..=14, 100)]);
    turns.require("plain turning", &[(0..=0, 1000), (11..=11, 100), (13..=13, 100)]);
}

/// So does reading by trial: good and damaged plans, sheets of every kind, buffers of right and wrong lengths.
#[test]
fn yardstick_of_the_trial_agrees() {
    let mut rng = Rng::new(27);
    let mut tally = Tally::default();
    for (b1, b2) in burst_sizes().filter(|(b1, b2)| b1 * b2 <= 9) {
        for _ in 0..16 {
            let plan = small(&mut rng, b1, b2);
            for _ in 0..16 {
                let bytes = if rng.one_in(6) { damaged(&plan, &mut rng) } else { plan.encode() };
                let mut sheet = sheet_in(Layout::Rows, &plan, rng.pick(&KINDS), &mut rng);
                let mut data = rng.bytes(plan.data_len());
                for buffer in [&mut sheet, &mut data] {
                    if rng.one_in(10) {
                        alter_length(buffer, &mut rng);
                    }
                }
                let (mut expected, mut text) = (sheet.clone(), data.clone());
                let answer = model::read_by_trial(&bytes, &mut expected, &mut text).pack();
                let plain = yardstick::plain_read_by_trial(&bytes, &mut sheet, &mut data);
                assert_eq!((plain, sheet, data), (answer, expected, text));
                tally.count(plain);
            }
        }
    }
    tally.require("plain reading by trial", &[(0..=0, 800), (11..=14, 100)]);
}

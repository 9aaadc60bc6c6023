//! sheet_read_by_trial by the thousands, each sheet beside the model's trial and beside sheet_read: every sheet of the
//! smallest plans, hundreds of small plans with every burst of one cell, random bursts, two bursts and random sheets,
//! every burst of some, sizes about 64 cells, bursts of 4 × 4.

use sheet_tests::cases::{plan_s, plan_t, plan_two_rows};
use sheet_tests::compared::{Harness, Written};
use sheet_tests::damage::{alter_length, damaged, set_unused_of_sheet};
use sheet_tests::kinds::{sheet_of, KINDS};
use sheet_tests::make::{
    accepted_of, accepted_of_with, burst_sizes, no_data, powers_3x3, CellOrder,
};
use sheet_tests::model::{self, cells};
use sheet_tests::plan::Plan;
use sheet_tests::scans::{
    every_burst, every_sheet, full_burst, random_burst, random_sheet, turned,
};
use sheet_tests::tally::Tally;
use sheet_tests::trials::{patterns, small, AT_THE_MOST, MOST_TRIED, OF_4X4, ONE_CELL_MORE};

/// Bursts of so few cells that each pattern can be tried on thousands of sheets.
fn small_bursts() -> impl Iterator<Item = (usize, usize)> {
    burst_sizes().filter(|(b1, b2)| b1 * b2 <= 9)
}

/// A burst whose smallest rectangle is not the one of the plan's size that it is found in.
fn is_smaller(plan: &Plan, burst: &[model::Cell]) -> bool {
    let told = model::smallest_rectangle(burst);
    (told.height, told.width) != (plan.b1 as u64, plan.b2 as u64)
}

/// Every sheet of the right form under S, T and two more. Each of the 2^k written sheets is taken as it is and with
/// each burst that is not empty: under S 9 cells; under T 4 cells and 3 pairs in each of 2 rows; with bursts of two
/// rows 3 cells and 2 pairs in each of 2 columns; and 2 cells where there is no data. All others are refused.
#[test]
fn every_sheet_of_the_smallest_plans() {
    let mut harness = Harness::new(181);
    for (plan, taken) in [
        (plan_s(), 32 * (1 + 9)),
        (plan_t(), 4 * (1 + 2 * (4 + 3))),
        (plan_two_rows(), 2 * (1 + 2 * (3 + 2))),
        (no_data(), 1 + 2),
    ] {
        let mut tally = Tally::default();
        let bytes = plan.encode();
        for sheet in every_sheet(&plan) {
            tally.count(harness.read_by_trial(&bytes, &sheet, plan.data_len()));
        }
        tally.require("every sheet", &[]);
        assert_eq!([tally.met(0), tally.met(14)], [taken, (1 << (plan.n1 * plan.n2)) - taken]);
    }
}

/// Every content of the two bytes of T, with unused bits that are 1 too; and of the three bytes of S as far as the
/// lowest unused bit.
#[test]
fn every_content_of_the_bytes() {
    let mut harness = Harness::new(182);
    let of_t = (0..1u32 << 16).map(|bits| bits.to_le_bytes()[..2].to_vec());
    let of_s = (0..1u32 << 12).map(|bits| [0, 4, 8].map(|at| (bits >> at & 15) as u8).to_vec());
    let all: [(Plan, Vec<Vec<u8>>, [u64; 3]); 2] = [
        (plan_t(), of_t.collect(), [60, 65536 - 256, 256 - 60]),
        (plan_s(), of_s.collect(), [320, 4096 - 512, 512 - 320]),
    ];
    for (plan, contents, expected) in all {
        let mut tally = Tally::default();
        let bytes = plan.encode();
        for sheet in contents {
            tally.count(harness.read_by_trial(&bytes, &sheet, plan.data_len()));
        }
        tally.require("every content", &[]);
        assert_eq!([0, 13, 14].map(|number| tally.met(number)), expected);
    }
}

/// Hundreds of small plans: each cell of a written sheet turned over alone, and random bursts.
#[test]
fn one_burst() {
    let mut harness = Harness::new(183);
    let (mut plans, mut single, mut random, mut smaller) = (0, 0, 0, 0);
    for (b1, b2) in small_bursts() {
        let count = if b1 * b2 <= 6 { 40 } else { 12 };
        for _ in 0..count {
            let plan = small(&mut harness.rng, b1, b2);
            let written = harness.written_accepted(plan);
            harness.mends_by_trial(&written, &[]);
            for cell in cells(&written.plan) {
                harness.mends_by_trial(&written, &[cell]);
                single += 1;
            }
            for _ in 0..10 {
                let cells = random_burst(&written.plan, &mut harness.rng);
                smaller += usize::from(is_smaller(&written.plan, &cells));
                harness.mends_by_trial(&written, &cells);
                random += 1;
            }
            plans += 1;
        }
    }
    println!("{plans} plans, {single} cells alone, {random} bursts, {smaller} of them smaller");
    assert_eq!((plans, random), (10 * 40 + 3 * 12, 10 * (10 * 40 + 3 * 12)));
    assert!(single >= 10_000 && smaller >= 2_000);
}

/// Every rectangle and every pattern in it on a written sheet of small plans.
#[test]
fn every_burst_of_small_plans() {
    let mut harness = Harness::new(184);
    let (mut plans, mut bursts) = (0, 0);
    for (b1, b2) in burst_sizes().filter(|(b1, b2)| b1 * b2 <= 6) {
        for _ in 0..16 {
            let plan = small(&mut harness.rng, b1, b2);
            let written = harness.written_accepted(plan);
            for cells in every_burst(&written.plan) {
                harness.mends_by_trial(&written, &cells);
                bursts += 1;
            }
            plans += 1;
        }
    }
    println!("{bursts} bursts on sheets of {plans} plans");
    assert!(plans == 160 && bursts >= 20_000);
}

/// Random sheets, sheets with two bursts, and of every kind: 14 or a mend, or 13.
#[test]
fn sheets_that_need_not_be_mendable() {
    let mut harness = Harness::new(185);
    let [mut random, mut two_bursts, mut kinds] = [(); 3].map(|()| Tally::default());
    for (b1, b2) in small_bursts() {
        let count = if b1 * b2 <= 6 { 24 } else { 3 };
        for _ in 0..count {
            let plan = small(&mut harness.rng, b1, b2);
            let Written { plan, sheet, .. } = harness.written_accepted(plan);
            for _ in 0..5 {
                let scan = random_sheet(&plan, &mut harness.rng);
                random.count(harness.trial_read(&plan, &scan).0);
                let [one, two] = [(); 2].map(|()| random_burst(&plan, &mut harness.rng));
                let scan = turned(&plan, &turned(&plan, &sheet, &one), &two);
                two_bursts.count(harness.trial_read(&plan, &scan).0);
            }
            for kind in KINDS {
                let scan = sheet_of(&plan, kind, &mut harness.rng);
                kinds.count(harness.trial_read(&plan, &scan).0);
            }
        }
    }
    random.require("by trial, random sheets", &[(0..=0, 50), (14..=14, 500)]);
    two_bursts.require("by trial, two bursts", &[(0..=0, 300), (14..=14, 300)]);
    kinds.require("by trial, sheets of every kind", &[(0..=0, 300), (13..=14, 200)]);
}

/// Thousands of plans that are turned back, and of wrong buffers under small plans.
#[test]
fn refused() {
    let mut harness = Harness::new(186);
    let mut tally = Tally::default();
    for (b1, b2) in small_bursts() {
        let count = if b1 * b2 <= 6 { 60 } else { 20 };
        for _ in 0..count {
            let plan = small(&mut harness.rng, b1, b2);
            for _ in 0..20 {
                let rng = &mut harness.rng;
                let bytes = if rng.one_in(4) { plan.encode() } else { damaged(&plan, rng) };
                let mut scan = random_sheet(&plan, rng);
                let mut data = vec![0; plan.data_len()];
                if rng.one_in(2) {
                    set_unused_of_sheet(&plan, &mut scan, rng);
                }
                for buffer in [&mut scan, &mut data] {
                    if rng.one_in(4) {
                        alter_length(buffer, rng);
                    }
                }
                tally.count(harness.read_by_trial(&bytes, &scan, data.len()));
            }
        }
    }
    tally.require("by trial, turned back", &[(1..=10, 100), (23..=23, 100), (11..=14, 300)]);
}

/// Sizes of 64 cells and of 65, beyond which the program does not try: the call does. Full bursts in the first
/// rectangle and in the last, the last cell alone, random bursts and sheets.
#[test]
fn sizes_about_64_cells() {
    let mut harness = Harness::new(187);
    let mut tally = Tally::default();
    for (sizes, cells) in [(&AT_THE_MOST[..], MOST_TRIED), (&ONE_CELL_MORE, MOST_TRIED + 1)] {
        for &size in sizes {
            let plan = accepted_of(&mut harness.rng, size);
            assert_eq!(plan.n1 * plan.n2, cells);
            let written = harness.written_accepted(plan);
            let plan = &written.plan;
            for (top, left) in [(0, 0), (plan.n1 - plan.b1, plan.n2 - plan.b2)] {
                harness.mends_by_trial(&written, &full_burst(plan, top, left));
            }
            harness.mends_by_trial(&written, &[(plan.n1 - 1, plan.n2 - 1)]);
            harness.mends_by_trial(&written, &[]);
            for _ in 0..3 {
                let cells = random_burst(plan, &mut harness.rng);
                harness.mends_by_trial(&written, &cells);
                let scan = random_sheet(plan, &mut harness.rng);
                tally.count(harness.trial_read(plan, &scan).0);
            }
        }
    }
    tally.require("random sheets of 64 and of 65 cells", &[(14..=14, 50)]);
}

/// Bursts of 4 × 4 and near it, of up to 65,536 patterns in a rectangle. The model's trial takes long here: it is
/// asked for sheets of four rectangles, and its usual reader for larger ones.
#[test]
fn large_bursts() {
    let mut harness = Harness::new(188);
    let (mut tally, mut tried) = (Tally::default(), 0);
    for (b1, b2) in [(3, 4), (4, 3), (4, 4)] {
        for _ in 0..2 {
            let plan = accepted_of_with(&mut harness.rng, [b1 + 1, b2 + 1, b1, b2], 0);
            assert_eq!(patterns(&plan), 4 << (b1 * b2));
            let written = harness.written_accepted(plan);
            harness.mends_by_trial(&written, &[(b1, b2)]);
            harness.mends_by_trial(&written, &full_burst(&written.plan, 1, 1));
            let scan = random_sheet(&written.plan, &mut harness.rng);
            tally.count(harness.trial_read(&written.plan, &scan).0);
        }
    }
    for size in OF_4X4 {
        let plan = accepted_of_with(&mut harness.rng, size, 0);
        let Written { plan, sheet, data, .. } = harness.written_accepted(plan);
        let (bottom, right) = (plan.n1 - plan.b1, plan.n2 - plan.b2);
        let single = cells(&plan).step_by(8).map(|cell| vec![cell]);
        let full = [(0, 0), (bottom, 0), (0, right), (bottom, right)]
            .map(|(top, left)| full_burst(&plan, top, left));
        for cells in single.chain(full) {
            let scan = turned(&plan, &sheet, &cells);
            let (answer, left) = harness.trial_read_of_large(&plan, &scan);
            assert_eq!(answer, model::smallest_rectangle(&cells).pack());
            assert!(left == [sheet.clone(), data.clone()], "{cells:?}");
            tried += 1;
        }
        for _ in 0..3 {
            let scan = random_sheet(&plan, &mut harness.rng);
            tally.count(harness.trial_read_of_large(&plan, &scan).0);
        }
    }
    println!("{tried} bursts of 4 x 4 at 64 and at 65 cells");
    assert_eq!(tried, 2 * 8 + 9 + 3 * 4);
    tally.require("random sheets with such bursts", &[(14..=14, 12)]);
}

/// Beyond 64 cells: every cell alone under bursts of 3 × 3, and random sheets.
#[test]
fn larger_sheets() {
    let mut harness = Harness::new(189);
    let (mut tally, mut tried) = (Tally::default(), 0);
    for (n1, n2) in [(16, 40), (23, 9), (9, 33)] {
        let plan = powers_3x3(n1, n2, CellOrder::Scattered, &mut harness.rng);
        let Written { plan, sheet, data, .. } = harness.written_accepted(plan);
        for cell in cells(&plan) {
            let scan = turned(&plan, &sheet, &[cell]);
            let (answer, left) = harness.trial_read_of_large(&plan, &scan);
            assert_eq!(answer, model::smallest_rectangle(&[cell]).pack());
            assert!(left == [sheet.clone(), data.clone()], "{cell:?}");
            tried += 1;
        }
        for _ in 0..20 {
            let scan = random_sheet(&plan, &mut harness.rng);
            tally.count(harness.trial_read_of_large(&plan, &scan).0);
        }
    }
    println!("{tried} cells alone");
    assert_eq!(tried, 16 * 40 + 23 * 9 + 9 * 33);
    tally.require("random sheets", &[(14..=14, 50)]);
}

//! sheet_write and sheet_read beside the model: answers and every byte of both buffers.

use sheet_tests::answer::Answer;
use sheet_tests::cases::{plan_s, plan_t, read_cases, write_cases};
use sheet_tests::compared::{Harness, Written};
use sheet_tests::damage::{alter_length, damaged, set_unused_of_data, set_unused_of_sheet};
use sheet_tests::ffi::Library;
use sheet_tests::make::{accepted, burst_sizes, largest_4x4, powers_1x1, powers_3x3, CellOrder};
use sheet_tests::scans::{burst, every_burst, every_sheet, random_burst, random_sheet, turned};
use sheet_tests::tally::Tally;

/// Cases 2 to 7 of 01.
#[test]
fn worked_sheets() {
    let mut library = Library::new(1);
    for (plan, data, expected) in write_cases() {
        let mut sheet = vec![0xaa; expected.len()];
        assert_eq!(library.write(&plan.encode(), &data, &mut sheet), 0);
        assert_eq!(sheet, expected);
    }
    for (plan, mut sheet, expected) in read_cases() {
        let mut data = vec![0xaa];
        let answer = Answer::unpack(library.read(&plan.encode(), &mut sheet, &mut data));
        match expected {
            Some((numbers, mended, text)) => {
                assert_eq!((answer.places(), answer.mended()), ((0, 0, 0), numbers));
                assert_eq!((sheet, data), (mended, text));
            }
            None => assert_eq!(answer, Answer::refusal(14, 0, 0)),
        }
    }
}

/// Every sheet and every string of data under S and under T.
#[test]
fn all_sheets_of_the_worked_plans() {
    let mut harness = Harness::new(2);
    for plan in [plan_s(), plan_t()] {
        let bytes = plan.encode();
        for scan in every_sheet(&plan) {
            harness.read(&bytes, &scan, plan.data_len());
        }
        for data in 0..1 << plan.data_bits() {
            harness.write(&bytes, &[data], plan.sheet_len());
        }
    }
}

/// Hundreds of small plans: every rectangle and every pattern in it on a written sheet.
#[test]
fn every_burst_of_small_plans() {
    let mut harness = Harness::new(3);
    let (mut plans, mut bursts) = (0, 0);
    for (b1, b2) in burst_sizes() {
        // The larger the burst, the more patterns there are, and the fewer plans are tried.
        let (count, more) = match b1 * b2 {
            1..=6 => (24, 5),
            7..=9 => (12, 3),
            10..=12 => (6, 2),
            _ => (2, 1),
        };
        for _ in 0..count {
            let plan = accepted(&mut harness.rng, b1, b2, more);
            let written = harness.written(plan);
            for cells in every_burst(&written.plan) {
                harness.mends(&written, &cells);
                bursts += 1;
            }
            plans += 1;
        }
    }
    println!("{bursts} bursts on sheets of {plans} plans");
    assert!(plans >= 200 && bursts >= 100_000);
}

/// Check cells in odd rows alone, where the data runs down between them, and rows of every length
/// modulo 8. Of some rows every cell is a check cell.
#[test]
fn check_cells_in_odd_rows() {
    let mut harness = Harness::new(7);
    let mut full_rows = 0;
    for n2 in 7..=70 {
        let plan = powers_3x3(20, n2, CellOrder::OddRows, &mut harness.rng);
        assert!(plan.checks.iter().all(|(i, _)| i % 2 == 1));
        let in_row = |row| plan.checks.iter().filter(|&&(i, _)| i == row).count();
        full_rows += (0..20).filter(|&row| in_row(row) == n2).count();
        for _ in 0..8 {
            let written = harness.written(plan.clone());
            let burst = random_burst(&written.plan, &mut harness.rng);
            harness.mends(&written, &burst);
        }
    }
    assert!(full_rows >= 5, "{full_rows} rows of check cells alone");
}

/// Random sheets and sheets with two bursts: 14 or a mend, as the model says.
#[test]
fn sheets_that_need_not_be_mendable() {
    let mut harness = Harness::new(4);
    let (mut random, mut two_bursts) = (Tally::default(), Tally::default());
    for (b1, b2) in burst_sizes() {
        for _ in 0..20 {
            let plan = accepted(&mut harness.rng, b1, b2, 8);
            let Written { plan, bytes, data, sheet } = harness.written(plan);
            for _ in 0..10 {
                let scan = random_sheet(&plan, &mut harness.rng);
                random.count(harness.read(&bytes, &scan, data.len()));
                let first = random_burst(&plan, &mut harness.rng);
                let second = random_burst(&plan, &mut harness.rng);
                let scan = turned(&plan, &turned(&plan, &sheet, &first), &second);
                two_bursts.count(harness.read(&bytes, &scan, data.len()));
            }
        }
    }
    random.require("sheet_read, random sheets", &[(0..=0, 100), (14..=14, 1000)]);
    two_bursts.require("sheet_read, two bursts", &[(0..=0, 100), (14..=14, 1000)]);
}

/// Every number: good and damaged plans, buffers of right and wrong lengths, unused bits set.
#[test]
fn every_number() {
    let mut harness = Harness::new(5);
    let (mut writes, mut reads) = (Tally::default(), Tally::default());
    for (b1, b2) in burst_sizes() {
        for _ in 0..50 {
            let plan = accepted(&mut harness.rng, b1, b2, 8);
            let Written { plan, bytes, data, sheet } = harness.written(plan);
            for _ in 0..24 {
                let rng = &mut harness.rng;
                let bytes = if rng.one_in(2) { bytes.clone() } else { damaged(&plan, rng) };
                let mut data = data.clone();
                let mut scan = if rng.one_in(3) {
                    random_sheet(&plan, rng)
                } else {
                    turned(&plan, &sheet, &random_burst(&plan, rng))
                };
                if rng.one_in(4) {
                    set_unused_of_data(&plan, &mut data, rng);
                    set_unused_of_sheet(&plan, &mut scan, rng);
                }
                if rng.one_in(4) {
                    alter_length(&mut scan, rng);
                }
                if rng.one_in(4) {
                    alter_length(&mut data, rng);
                }
                writes.count(harness.write(&bytes, &data, scan.len()));
                reads.count(harness.read(&bytes, &scan, data.len()));
            }
        }
    }
    writes.require("sheet_write", &[(0..=0, 1000), (1..=13, 100), (23..=23, 100)]);
    reads.require("sheet_read", &[(0..=0, 1000), (1..=14, 100), (23..=23, 100)]);
}

/// Full size: bursts in all corners, at the edges and inside; two bursts; a random sheet.
#[test]
fn full_size() {
    let mut harness = Harness::new(6);
    for plan in [
        powers_1x1(CellOrder::Scattered, &mut harness.rng),
        powers_3x3(512, 698, CellOrder::Sheet, &mut harness.rng),
        powers_3x3(512, 698, CellOrder::Scattered, &mut harness.rng),
        largest_4x4(CellOrder::Scattered, &mut harness.rng),
    ] {
        let written = harness.written(plan);
        let plan = &written.plan;
        let (bottom, right) = (plan.n1 - plan.b1, plan.n2 - plan.b2);
        for top in [0, bottom / 2, bottom] {
            for left in [0, right / 2, right] {
                for pattern in [u32::MAX, harness.rng.bits(plan.b1 * plan.b2)] {
                    harness.mends(&written, &burst(plan, top, left, pattern));
                }
            }
        }
        let corners = [(0, 0), (0, plan.n2 - 1), (plan.n1 - 1, 0), (plan.n1 - 1, plan.n2 - 1)];
        for corner in corners {
            harness.mends(&written, &[corner]);
        }
        harness.mends(&written, &[]);
        harness.read(&written.bytes, &turned(plan, &written.sheet, &corners), plan.data_len());
        let scan = random_sheet(plan, &mut harness.rng);
        harness.read(&written.bytes, &scan, plan.data_len());
    }
}

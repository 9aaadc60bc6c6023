//! sheet_sums, case by case, beside the model: runs worked out by hand, the bytes of the sums, every number,
//! the order of the checks, and what the caller may leave in buffers and registers.

// A run may end below its start.
#![allow(clippy::reversed_empty_ranges)]

use sheet_tests::answer::Answer;
use sheet_tests::cases::{plan_for_each_number, plan_s, plan_t, plan_two_rows, run_cases};
use sheet_tests::compared::{house_by_call, Harness};
use sheet_tests::damage::{alter_length, damaged, set_unused_of_sheet};
use sheet_tests::ffi::{sums, sums_by_registers};
use sheet_tests::make::{accepted, burst_sizes, wide_3x3, CellOrder};
use sheet_tests::model;
use sheet_tests::rng::Rng;
use sheet_tests::runs::{random_run, whole};
use sheet_tests::scans::{random_sheet, turned};
use sheet_tests::tally::Tally;

/// Runs of sheets of S and T, and of a plan with bursts of two rows.
#[test]
fn worked_runs() {
    let mut harness = Harness::new(41);
    for (plan, sheet, runs) in run_cases() {
        for (run, expected) in runs {
            let sums = harness.run_sums(&plan, &sheet, run.clone());
            assert_eq!(sums, expected, "{sheet:x?}, run {run:?}");
        }
    }
}

/// The 8 bytes of T's case 6: V, then H, each low byte first.
#[test]
fn bytes_of_the_sums() {
    let mut into = [0xaa; 8];
    assert_eq!(sums(&plan_t().encode(), &[0x03, 0x05], 0..2, &mut into, false), 0);
    assert_eq!(into, [3, 0, 0, 0, 1, 0, 0, 0]);
}

/// Of one dark cell alone the sums are its two entries, byte for byte as they stand in the plan; and 0
/// for the rows before it and those after it. Entries of 32 bits, and small plans of every burst size.
#[test]
fn one_dark_cell() {
    let mut harness = Harness::new(42);
    let rng = &mut harness.rng;
    let mut plans = vec![plan_two_rows(), wide_3x3(CellOrder::Scattered, rng)];
    plans.extend(burst_sizes().map(|(b1, b2)| accepted(rng, b1, b2, 8)));
    for plan in plans {
        let bytes = plan.encode();
        let [v_table, h_table, ..] = plan.layout();
        for _ in 0..100 {
            let (i, j) = (harness.rng.below(plan.n1), harness.rng.below(plan.n2));
            let sheet = turned(&plan, &vec![0; plan.sheet_len()], &[(i, j)]);
            let v = v_table + 4 * (i * plan.b2 + j % plan.b2);
            let h = h_table + 4 * (j * plan.b1 + i % plan.b1);
            let entries = [&bytes[v..v + 4], &bytes[h..h + 4]].concat();
            let row = i as u32;
            for (run, expected) in [
                (row..row + 1, &entries[..]),
                (whole(&plan), &entries),
                (0..row, &[0; 8]),
                (row + 1..u32::MAX, &[0; 8]),
            ] {
                let mut into = harness.rng.bytes(8);
                assert_eq!(harness.library.sums(&bytes, &sheet, run.clone(), &mut into), 0);
                assert_eq!(into, expected, "({i}, {j}), run {run:?} under {plan:?}");
            }
        }
    }
}

/// A length that is not 8.
fn wrong_sums_len(rng: &mut Rng) -> usize {
    rng.pick(&[0, 1, 4, 7, 9, 12, 16, 264])
}

/// Every number: good and damaged plans, sheets of right and wrong lengths, unused bits set, sums of right
/// and wrong lengths. No other number is met: not 12, and not 14, though few of the sheets can be mended.
#[test]
fn every_number() {
    let mut harness = Harness::new(51);
    let mut tally = Tally::default();
    for (b1, b2) in burst_sizes() {
        for _ in 0..50 {
            let plan = accepted(&mut harness.rng, b1, b2, 8);
            let bytes = plan.encode();
            for _ in 0..24 {
                let rng = &mut harness.rng;
                let bytes = if rng.one_in(2) { bytes.clone() } else { damaged(&plan, rng) };
                let mut sheet = random_sheet(&plan, rng);
                if rng.one_in(4) {
                    set_unused_of_sheet(&plan, &mut sheet, rng);
                }
                if rng.one_in(4) {
                    alter_length(&mut sheet, rng);
                }
                let sums_len = if rng.one_in(3) { wrong_sums_len(rng) } else { 8 };
                let run = random_run(&plan, rng);
                tally.count(harness.sums(&bytes, &sheet, run, sums_len));
            }
        }
    }
    tally.require(
        "sheet_sums",
        &[(0..=0, 1000), (1..=11, 100), (23..=23, 100), (13..=13, 100), (24..=24, 100)],
    );
    let others = [12].into_iter().chain(14..23).chain(25..32);
    assert!(others.into_iter().all(|number| tally.met(number) == 0));
}

/// The first check that fails is told, whatever else is wrong: the plan's number before all others, then
/// 11, then 13 with the byte, then 24. A refusal changes nothing, and the run is of no account.
#[test]
fn order_of_the_checks() {
    let mut harness = Harness::new(52);
    let mut tally = Tally::default();
    for (bytes, of_the_plan) in plan_for_each_number() {
        for (sheet, of_the_sheet) in [
            (&[0x07, 0x05, 0x02][..], Answer::default()),
            (&[0x07, 0x05], Answer::refusal(11, 0, 0)),
            (&[0x07, 0x05, 0x02, 0x00], Answer::refusal(11, 0, 0)),
            (&[0x08, 0x05], Answer::refusal(11, 0, 0)),
            (&[], Answer::refusal(11, 0, 0)),
            (&[0x0f, 0x05, 0x02], Answer::refusal(13, 0, 0)),
            (&[0x07, 0x85, 0xff], Answer::refusal(13, 1, 0)),
            (&[0x07, 0x05, 0x12], Answer::refusal(13, 2, 0)),
        ] {
            for sums_len in [8, 0, 1, 7, 9, 16] {
                let of_the_sums = Answer::refusal(if sums_len == 8 { 0 } else { 24 }, 0, 0);
                let all = [of_the_plan, of_the_sheet, of_the_sums];
                let told = all.into_iter().find(|answer| answer.is_refusal()).unwrap_or_default();
                for run in [0..3, 1..1, 0..1, 7..9] {
                    let answer = harness.sums(&bytes, sheet, run, sums_len);
                    assert_eq!(Answer::unpack(answer), told);
                    tally.count(answer);
                }
            }
        }
    }
    let least =
        [(0..=0, 4), (1..=10, 100), (23..=23, 100), (11..=11, 50), (13..=13, 50), (24..=24, 20)];
    tally.require("sheet_sums, more than one check fails", &least);
}

/// Lengths other than 8 are turned back with 24: short ones, multiples, and such as differ from 8 by 256
/// or 65,536. Where the length is 0, the pointer is null or not.
#[test]
fn other_lengths_of_the_sums() {
    let mut harness = Harness::new(53);
    let plan = plan_t().encode();
    let lengths = (0..8).chain(9..=40).chain([264, 520, 65_544, 131_080]);
    for sums_len in lengths {
        for run in [0..2, 2..0] {
            let answer = harness.sums(&plan, &[0x03, 0x05], run, sums_len);
            assert_eq!(Answer::unpack(answer), Answer::refusal(24, 0, 0), "{sums_len}");
        }
    }
    for null in [false, true] {
        assert_eq!(sums(&plan, &[0x03, 0x05], 0..2, &mut [], null), 24, "null: {null}");
    }
}

/// Every byte of the sums is written whatever it held, also where the sums are 0 and where the run is
/// empty. With each bit of the sums turned over before, no byte that the call leaves alone is right.
#[test]
fn whatever_the_sums_held() {
    let mut harness = Harness::new(54);
    for plan in [plan_s(), plan_t(), wide_3x3(CellOrder::Sheet, &mut harness.rng)] {
        let bytes = plan.encode();
        let sheet = random_sheet(&plan, &mut harness.rng);
        for run in [whole(&plan), 1..2, 1..1, 2..1, u32::MAX - 1..u32::MAX] {
            let mut expected = vec![0; 8];
            model::sums_accepted(&plan, &sheet, run.clone(), &mut expected);
            let turned_over = expected.iter().map(|byte| !byte).collect();
            let random = harness.rng.bytes(8);
            for held in [vec![0; 8], vec![0xff; 8], expected.clone(), turned_over, random] {
                let mut into = held;
                assert_eq!(harness.library.sums(&bytes, &sheet, run.clone(), &mut into), 0);
                assert_eq!(into, expected, "run {run:?}");
            }
        }
    }
}

/// Only the lower halves of the registers count that the two numbers are handed over in.
#[test]
fn upper_halves_of_the_registers() {
    let mut harness = Harness::new(55);
    for plan in [plan_two_rows(), house_by_call()] {
        let bytes = plan.encode();
        let sheet = random_sheet(&plan, &mut harness.rng);
        let rng = &mut harness.rng;
        for _ in 0..40 {
            let run = random_run(&plan, rng);
            let mut register = |number: u32| u64::from(number) | u64::from(rng.bits(32)) << 32;
            let registers = register(run.start)..register(run.end);
            let (mut into, mut expected) = ([0xaa; 8], [0xaa; 8]);
            model::sums_accepted(&plan, &sheet, run, &mut expected);
            assert_eq!(sums_by_registers(&bytes, &sheet, registers.clone(), &mut into), 0);
            assert_eq!(into, expected, "registers {registers:x?}");
        }
    }
}

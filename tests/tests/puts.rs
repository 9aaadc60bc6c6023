//! sheet_put_back by the thousands, beside the model: every burst of small plans, scans that are read and put back,
//! answers that differ in one field or in one bit, small numbers, random ones, wrong plans and buffers, full size.

use sheet_tests::answer::Answer;
use sheet_tests::cases::{plan_s, plan_t};
use sheet_tests::compared::{Harness, Written};
use sheet_tests::damage::{alter_length, damaged, set_unused_of_sheet};
use sheet_tests::ffi::put_back;
use sheet_tests::kinds::{sheet_of, KINDS};
use sheet_tests::make::{
    accepted, accepted_of, accepted_of_with, burst_sizes, largest_4x4, plans_of_many_sizes,
    powers_1x1, powers_3x3, wide_3x3, CellOrder,
};
use sheet_tests::model::{self, faults, smallest_rectangle};
use sheet_tests::pairs::edge_bursts;
use sheet_tests::plan::Plan;
use sheet_tests::puts::{
    differing_in_one, every_answer, near_misses, packed, plan_eight, random_answer, spoilt_answer,
};
use sheet_tests::scans::{burst, random_burst, random_sheet, turned};
use sheet_tests::tally::Tally;
use sheet_tests::trials::{small, MOST_TRIED};

/// Every burst of every one of many small plans: its packed answer is taken, exactly its cells are turned over, and put
/// back twice is nothing.
#[test]
fn every_burst_of_small_plans() {
    let mut harness = Harness::new(201);
    let (mut plans, mut bursts) = (0, 0);
    for (b1, b2) in burst_sizes().filter(|(b1, b2)| b1 * b2 <= 9) {
        let count = if b1 * b2 <= 6 { 16 } else { 4 };
        for _ in 0..count {
            let plan = small(&mut harness.rng, b1, b2);
            for answer in every_answer(&plan) {
                let sheet = random_sheet(&plan, &mut harness.rng);
                harness.puts(&plan, &sheet, answer);
                bursts += 1;
            }
            plans += 1;
        }
    }
    println!("every burst of {plans} small plans: {bursts} put back");
    assert!(plans == 10 * 16 + 3 * 4 && bursts >= 30_000);
}

/// Every burst of 3 × 4, 4 × 3 and 4 × 4 on sheets of one row and one column more: of the largest, 65,536 patterns
/// in each of four rectangles. One sheet for all: from one to the next a burst is put back, and all of them once more.
#[test]
fn every_pattern_of_large_bursts() {
    let mut harness = Harness::new(202);
    let mut bursts = 0;
    for (b1, b2) in [(3, 4), (4, 3), (4, 4)] {
        let plan = accepted_of_with(&mut harness.rng, [b1 + 1, b2 + 1, b1, b2], 0);
        let bytes = plan.encode();
        let sheet = random_sheet(&plan, &mut harness.rng);
        let (mut left, mut expected) = (sheet.clone(), sheet.clone());
        let answers = every_answer(&plan);
        for round in 0..2 {
            for &answer in &answers {
                assert_eq!(put_back(&bytes, &mut left, answer, false), 0, "{answer:#x}");
                if round == 0 {
                    let cells = model::cells_told(Answer::unpack(answer));
                    expected = turned(&plan, &expected, &cells);
                    assert!(left == expected, "{cells:?} under {plan:?}");
                    bursts += 1;
                }
            }
        }
        assert!(left == sheet, "all bursts twice under {plan:?}");
    }
    println!("every burst of 3 x 4, 4 x 3 and 4 x 4: {bursts} put back");
    assert!(bursts >= 200_000);
}

/// Scans as written, with one burst, random, and of other kinds, under plans of every burst size: read by each reader
/// and put back, every byte is restored.
#[test]
fn scans_restored() {
    let mut harness = Harness::new(203);
    let [mut with_bursts, mut random, mut kinds] = [(); 3].map(|()| Tally::default());
    for (b1, b2) in burst_sizes() {
        for _ in 0..40 {
            let plan = accepted(&mut harness.rng, b1, b2, 8);
            let is_tried = b1 * b2 <= 6 && plan.n1 * plan.n2 <= MOST_TRIED;
            let Written { plan, sheet, .. } = harness.written_accepted(plan);
            with_bursts.count(harness.restores(&plan, &sheet, is_tried));
            for _ in 0..8 {
                let cells = random_burst(&plan, &mut harness.rng);
                let answer = harness.restores(&plan, &turned(&plan, &sheet, &cells), is_tried);
                assert_eq!(answer, smallest_rectangle(&cells).pack(), "{cells:?} under {plan:?}");
                with_bursts.count(answer);
            }
            for _ in 0..16 {
                let scan = random_sheet(&plan, &mut harness.rng);
                random.count(harness.restores(&plan, &scan, is_tried));
            }
            for kind in KINDS {
                let scan = sheet_of(&plan, kind, &mut harness.rng);
                kinds.count(harness.restores(&plan, &scan, is_tried));
            }
        }
    }
    with_bursts.require("restored, as written and with one burst", &[(0..=0, 5_760)]);
    random.require("restored, random sheets", &[(0..=0, 300), (14..=14, 1000)]);
    kinds.require("restored, sheets of every kind", &[(0..=0, 1000), (13..=14, 300)]);
}

/// The same for random sheets under plans with small bursts, where one in a few is taken.
#[test]
fn random_sheets_restored() {
    let mut harness = Harness::new(209);
    let mut tally = Tally::default();
    for (b1, b2) in [(1, 1), (1, 2), (2, 1)] {
        for _ in 0..100 {
            let plan = accepted(&mut harness.rng, b1, b2, 4);
            for _ in 0..40 {
                let scan = random_sheet(&plan, &mut harness.rng);
                tally.count(harness.restores(&plan, &scan, true));
            }
        }
    }
    tally.require("restored, random sheets with small bursts", &[(0..=0, 2_000), (14..=14, 2_000)]);
}

/// The same under plans of sizes about multiples of 8, thin ones and such as have several bytes in rows or columns:
/// each edge, random bursts, and what does not belong.
#[test]
fn plans_of_every_shape() {
    let mut harness = Harness::new(204);
    let mut puts = 0;
    for plan in plans_of_many_sizes(&mut harness.rng) {
        let Written { plan, sheet, .. } = harness.written_accepted(plan);
        for cells in edge_bursts(&plan) {
            harness.restores(&plan, &turned(&plan, &sheet, &cells), false);
        }
        for _ in 0..60 {
            let answer = random_answer(&plan, &mut harness.rng);
            let any = random_sheet(&plan, &mut harness.rng);
            harness.puts(&plan, &any, answer);
            puts += 1;
        }
        for (fault, answer) in near_misses(&plan) {
            assert_eq!(harness.put(&plan, &sheet, answer).0, 22, "{fault:?} under {plan:?}");
        }
    }
    println!("{puts} answers put back on sheets of many sizes");
    assert!(puts >= 1200);
}

/// The number that is told of an answer on a light sheet, by a bare call, which must be the model's; nothing is left of
/// it, since what is taken is put back twice.
fn told(plan: &Plan, bytes: &[u8], sheet: &mut [u8], answer: u64) -> u64 {
    let told = put_back(bytes, sheet, answer, false);
    let expected = if faults(plan, answer).is_empty() { 0 } else { 22 };
    assert_eq!(told, expected, "{answer:#x}, {:?}", Answer::told_by(answer));
    if told == 0 {
        let cells = model::cells_told(Answer::unpack(answer));
        assert!(*sheet == turned(plan, &vec![0; sheet.len()], &cells), "{cells:?}");
        assert_eq!(put_back(bytes, sheet, answer, false), 0);
    }
    assert!(sheet.iter().all(|&byte| byte == 0), "{answer:#x} leaves a trace");
    told
}

/// All answers that differ from a good one in one field: its cells, top, left, height, width or pattern.
#[test]
fn answers_that_differ_in_one_field() {
    let mut tally = Tally::default();
    for (plan, six) in [
        (plan_s(), [0; 6]),
        (plan_s(), [1, 2, 0, 1, 1, 1]),
        (plan_t(), [2, 0, 1, 1, 2, 3]),
        (plan_t(), [1, 1, 3, 1, 1, 1]),
        (plan_eight(), [0; 6]),
        (plan_eight(), [4, 1, 2, 2, 3, 0b001_111]),
        (plan_eight(), [4, 5, 6, 3, 2, 0b11_01_01]),
        (plan_eight(), [9, 5, 5, 3, 3, 0x1ff]),
    ] {
        let (bytes, mut sheet) = (plan.encode(), vec![0; plan.sheet_len()]);
        assert_eq!(told(&plan, &bytes, &mut sheet, packed(six)), 0);
        for answer in differing_in_one(six) {
            tally.count(told(&plan, &bytes, &mut sheet, answer));
        }
    }
    tally.require("answers that differ in one field", &[(0..=0, 60), (22..=22, 500_000)]);
}

/// All numbers of 18 bits, and all of 16 bits above the number, above the places, and in the pattern.
#[test]
fn small_integers() {
    let mut tally = Tally::default();
    for plan in [plan_s(), plan_t(), plan_eight()] {
        let (bytes, mut sheet) = (plan.encode(), vec![0; plan.sheet_len()]);
        let shifted =
            [5, 29, 35].into_iter().flat_map(|shift| (0..1 << 16).map(move |n| n << shift));
        for answer in (0..1 << 18).chain(shifted) {
            tally.count(told(&plan, &bytes, &mut sheet, answer));
        }
    }
    tally.require("small integers", &[(0..=0, 12), (22..=22, 1_000_000)]);
}

/// Good answers with each of the 64 bits turned over: each is taken only if the model takes it. And spoilt in other
/// ways, on guarded sheets.
#[test]
fn each_bit_of_answers() {
    let mut harness = Harness::new(205);
    let (mut bits, mut others) = (Tally::default(), Tally::default());
    for (b1, b2) in burst_sizes() {
        for _ in 0..12 {
            let plan = accepted(&mut harness.rng, b1, b2, 8);
            let (bytes, mut light) = (plan.encode(), vec![0; plan.sheet_len()]);
            for _ in 0..24 {
                let answer = random_answer(&plan, &mut harness.rng);
                assert_eq!(told(&plan, &bytes, &mut light, answer), 0);
                for bit in 0..64 {
                    bits.count(told(&plan, &bytes, &mut light, answer ^ 1 << bit));
                }
                let sheet = random_sheet(&plan, &mut harness.rng);
                for _ in 0..8 {
                    let spoilt = spoilt_answer(&plan, answer, &mut harness.rng);
                    others.count(harness.put(&plan, &sheet, spoilt).0);
                }
            }
        }
    }
    bits.require("each bit of good answers", &[(0..=0, 5_000), (22..=22, 250_000)]);
    others.require("good answers spoilt", &[(0..=0, 2_000), (22..=22, 20_000)]);
}

/// Random 64-bit numbers: any, such as have the number 0, and such as have 0 above the fields too.
#[test]
fn random_numbers() {
    let mut harness = Harness::new(206);
    let mut tally = Tally::default();
    let widest = accepted_of(&mut harness.rng, [8, 8, 4, 4]);
    for plan in [plan_s(), plan_t(), plan_eight(), widest] {
        let (bytes, mut sheet) = (plan.encode(), vec![0; plan.sheet_len()]);
        for _ in 0..100_000 {
            let rng = &mut harness.rng;
            let any = u64::from(rng.bits(32)) << 32 | u64::from(rng.bits(32));
            let answer = any & rng.pick(&[u64::MAX, !31, !31 & ((1 << 51) - 1)]);
            tally.count(told(&plan, &bytes, &mut sheet, answer));
        }
    }
    tally.require("random 64-bit numbers", &[(22..=22, 399_000)]);
}

/// Thousands of plans that are turned back, and of wrong buffers, with good answers and others.
#[test]
fn refused() {
    let mut harness = Harness::new(207);
    let mut tally = Tally::default();
    for (b1, b2) in burst_sizes() {
        for _ in 0..48 {
            let plan = accepted(&mut harness.rng, b1, b2, 8);
            for _ in 0..20 {
                let rng = &mut harness.rng;
                let bytes = if rng.one_in(4) { plan.encode() } else { damaged(&plan, rng) };
                let mut sheet = random_sheet(&plan, rng);
                if rng.one_in(3) {
                    set_unused_of_sheet(&plan, &mut sheet, rng);
                }
                if rng.one_in(4) {
                    alter_length(&mut sheet, rng);
                }
                let good = random_answer(&plan, rng);
                let answer = if rng.one_in(2) { good } else { spoilt_answer(&plan, good, rng) };
                tally.count(harness.put_back(&bytes, &sheet, answer));
            }
        }
    }
    let least = [(0..=0, 500), (1..=11, 150), (23..=23, 150), (13..=13, 200), (22..=22, 400)];
    tally.require("putting back, turned back", &least);
}

/// Full size with bursts of one cell, of 3 × 3 and of 4 × 4: each edge, random bursts on random sheets, near misses.
#[test]
fn full_size() {
    let mut harness = Harness::new(208);
    let (mut puts, mut misses) = (0, 0);
    let rng = &mut harness.rng;
    for plan in [
        powers_1x1(CellOrder::Scattered, rng),
        powers_3x3(512, 698, CellOrder::Sheet, rng),
        wide_3x3(CellOrder::Scattered, rng),
        largest_4x4(CellOrder::Scattered, rng),
    ] {
        let (bytes, mut light) = (plan.encode(), vec![0; plan.sheet_len()]);
        let sheet = random_sheet(&plan, &mut harness.rng);
        let last = burst(&plan, plan.n1 - plan.b1, plan.n2 - plan.b2, u32::MAX);
        for cells in edge_bursts(&plan).into_iter().chain([last]) {
            harness.puts(&plan, &sheet, smallest_rectangle(&cells).pack());
            puts += 1;
        }
        for _ in 0..12 {
            let answer = random_answer(&plan, &mut harness.rng);
            harness.puts(&plan, &sheet, answer);
            puts += 1;
        }
        for (fault, answer) in near_misses(&plan).into_iter().step_by(13) {
            assert_eq!(told(&plan, &bytes, &mut light, answer), 22, "{fault:?}");
            misses += 1;
        }
    }
    println!("{puts} answers put back at full size, {misses} near misses");
    assert!(puts == 4 * 22 && misses >= 200);
}

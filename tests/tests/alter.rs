//! sheet_alter, case by case, beside the model: alterations worked out by hand, every sheet of the smallest
//! plans, every number, the order of the checks, positions about k and far beyond, and registers.

use sheet_tests::answer::Answer;
use sheet_tests::cases::{
    alter_cases, plan_for_each_number, plan_s, plan_t, plan_two_rows, read_cases,
};
use sheet_tests::compared::{house_by_call, Harness, Written};
use sheet_tests::damage::{alter_length, damaged, set_unused_of_sheet};
use sheet_tests::ffi::{alter, alter_by_register};
use sheet_tests::make::{accepted, burst_sizes, no_data};
use sheet_tests::model;
use sheet_tests::positions::{beyond, every_position, random_position};
use sheet_tests::runs::whole;
use sheet_tests::scans::{every_sheet, random_burst, random_sheet, turned};
use sheet_tests::tally::Tally;

fn exclusive_or(left: &[u8], right: &[u8]) -> Vec<u8> {
    left.iter().zip(right).map(|(left, right)| left ^ right).collect()
}

/// S, T and a plan with bursts of two rows: from every sheet that belongs, each position turns over the
/// cells that were worked out by hand.
#[test]
fn worked_alterations() {
    let mut harness = Harness::new(61);
    let mut alterations = 0;
    for (plan, turned_over) in alter_cases() {
        assert_eq!(turned_over.len(), plan.data_bits());
        for data in 0..1 << plan.data_bits() {
            let sheet = model::write_sheet(&plan, &[data]);
            for (position, cells) in turned_over.iter().enumerate() {
                let mut left = sheet.clone();
                let answer = harness.library.alter(&plan.encode(), &mut left, position as u32);
                assert_eq!(answer, 0, "{sheet:x?} at {position}");
                assert_eq!(left, exclusive_or(&sheet, cells), "{sheet:x?} at {position}");
                alterations += 1;
            }
        }
    }
    assert_eq!(alterations, 32 * 5 + 4 * 2 + 2);
}

/// The sheets of 02 c) and of 01's cases 2 and 5, one made of the other.
#[test]
fn worked_sheets() {
    for (plan, before, position, after) in [
        (plan_t(), &[0x00, 0x00][..], 0, &[0x0a, 0x0a][..]),
        (plan_t(), &[0x0a, 0x0a], 0, &[0x00, 0x00]),
        (plan_t(), &[0x00, 0x00], 1, &[0x05, 0x05]),
        (plan_t(), &[0x0a, 0x0a], 1, &[0x0f, 0x0f]),
        (plan_t(), &[0x0f, 0x0f], 0, &[0x05, 0x05]),
        (plan_s(), &[0x00, 0x00, 0x00], 0, &[0x05, 0x05, 0x00]),
        (plan_s(), &[0x05, 0x05, 0x00], 1, &[0x06, 0x06, 0x00]),
        (plan_s(), &[0x01, 0x07, 0x07], 4, &[0x05, 0x06, 0x03]),
    ] {
        let mut sheet = before.to_vec();
        assert_eq!(alter(&plan.encode(), &mut sheet, position, false), 0);
        assert_eq!(sheet, after, "{before:x?} at {position}");
    }
}

/// Every sheet of the smallest plans, at every position and beyond. Those that do not belong are turned
/// back also where one sum alone is not 0, and where one burst would mend them.
#[test]
fn every_sheet_of_the_smallest_plans() {
    let mut harness = Harness::new(62);
    let mut tally = Tally::default();
    let (mut only_v, mut only_h, mut mendable) = (0, 0, 0);
    for plan in [plan_s(), plan_t(), plan_two_rows(), no_data()] {
        let k = plan.data_bits() as u32;
        for sheet in every_sheet(&plan) {
            let sums = model::run_sums(&plan, &sheet, whole(&plan));
            only_v += usize::from(sums.0 != 0 && sums.1 == 0);
            only_h += usize::from(sums.0 == 0 && sums.1 != 0);
            let mends = model::burst_by_search(&plan, &sheet).is_some();
            mendable += usize::from(sums != (0, 0) && mends);
            for position in 0..k + 2 {
                let (answer, _) = harness.altered(&plan, &sheet, position);
                let belonging = if sums == (0, 0) { 0 } else { 18 };
                assert_eq!(answer, if position < k { belonging } else { 17 }, "{sheet:x?}");
                tally.count(answer);
            }
        }
    }
    println!("sheets with one sum not 0: {only_v} V, {only_h} H; {mendable} that one burst mends");
    assert!(only_v >= 100 && only_h >= 50 && mendable >= 300);
    let least = [(0..=0, 170), (17..=17, 1600), (18..=18, 2900)];
    tally.require("sheet_alter, the smallest plans", &least);
}

/// The sheets that 01 reads with something to mend, or not at all: they do not belong, and none is mended.
#[test]
fn nothing_is_mended_first() {
    let mut harness = Harness::new(63);
    for (plan, sheet, _) in read_cases() {
        for position in every_position(&plan) {
            let (answer, left) = harness.altered(&plan, &sheet, position);
            assert_eq!(Answer::unpack(answer), Answer::refusal(18, 0, 0));
            assert_eq!(left, sheet);
        }
    }
}

/// Every number: good and damaged plans, sheets of right and wrong lengths, unused bits set, positions
/// below k and beyond, sheets as written, with bursts, and random. No other number is met, not 12 or 14.
#[test]
fn every_number() {
    let mut harness = Harness::new(64);
    let mut tally = Tally::default();
    for (b1, b2) in burst_sizes() {
        for _ in 0..50 {
            let plan = accepted(&mut harness.rng, b1, b2, 8);
            let Written { plan, bytes, sheet, .. } = harness.written(plan);
            for _ in 0..32 {
                let rng = &mut harness.rng;
                let bytes = if rng.one_in(2) { bytes.clone() } else { damaged(&plan, rng) };
                let mut sheet = match rng.below(6) {
                    0 => random_sheet(&plan, rng),
                    1 => turned(&plan, &sheet, &random_burst(&plan, rng)),
                    _ => sheet.clone(),
                };
                if rng.one_in(5) {
                    set_unused_of_sheet(&plan, &mut sheet, rng);
                }
                if rng.one_in(5) {
                    alter_length(&mut sheet, rng);
                }
                let position = random_position(&plan, rng);
                tally.count(harness.alter(&bytes, &sheet, position));
            }
        }
    }
    let least = [(0..=0, 1000), (1..=11, 100), (23..=23, 100), (13..=13, 100), (17..=18, 100)];
    tally.require("sheet_alter", &least);
    let others = [12].into_iter().chain(14..17).chain(19..23).chain(24..32);
    assert!(others.into_iter().all(|number| tally.met(number) == 0));
}

/// The first check that fails is told, whatever else is wrong: the plan's number before all others, then
/// 11, then 13 with the byte, then 17, then 18. A refusal changes nothing.
#[test]
fn order_of_the_checks() {
    let mut harness = Harness::new(65);
    let mut tally = Tally::default();
    for (bytes, of_the_plan) in plan_for_each_number() {
        for (sheet, of_the_form, belongs) in [
            (&[0x03, 0x03, 0x00][..], Answer::default(), true),
            (&[0x03, 0x03, 0x01], Answer::default(), false),
            (&[0x03, 0x00, 0x00], Answer::default(), false),
            (&[0x03, 0x03], Answer::refusal(11, 0, 0), true),
            (&[0x03, 0x03, 0x00, 0x00], Answer::refusal(11, 0, 0), true),
            (&[0x08, 0x05], Answer::refusal(11, 0, 0), false),
            (&[], Answer::refusal(11, 0, 0), true),
            (&[0x0b, 0x03, 0x00], Answer::refusal(13, 0, 0), true),
            (&[0x03, 0x83, 0x40], Answer::refusal(13, 1, 0), true),
            (&[0x03, 0x03, 0x10], Answer::refusal(13, 2, 0), true),
            (&[0x01, 0x03, 0x10], Answer::refusal(13, 2, 0), false),
        ] {
            for position in [0, 4, 5, 6, 8, 9, 1 << 16, 1 << 31, u32::MAX] {
                let of_the_position = Answer::refusal(if position < 5 { 0 } else { 17 }, 0, 0);
                let of_the_sums = Answer::refusal(if belongs { 0 } else { 18 }, 0, 0);
                let all = [of_the_plan, of_the_form, of_the_position, of_the_sums];
                let told = all.into_iter().find(|answer| answer.is_refusal()).unwrap_or_default();
                let answer = harness.alter(&bytes, sheet, position);
                assert_eq!(Answer::unpack(answer), told, "{sheet:x?} at {position}");
                tally.count(answer);
            }
        }
    }
    let least = [
        (0..=0, 2),
        (1..=10, 90),
        (23..=23, 90),
        (11..=11, 30),
        (13..=13, 30),
        (17..=17, 20),
        (18..=18, 4),
    ];
    tally.require("sheet_alter, more than one check fails", &least);
}

/// The last position is taken. k, k + 1 and others beyond are turned back with 17, whether the sheet
/// belongs or not; where it has an unused bit that is 1, with 13.
#[test]
fn positions_about_k() {
    let mut harness = Harness::new(66);
    let (mut taken, mut tally) = (0, Tally::default());
    let mut plans = vec![plan_s(), plan_t(), plan_two_rows()];
    for (b1, b2) in burst_sizes() {
        plans.extend((0..4).map(|_| accepted(&mut harness.rng, b1, b2, 12)));
    }
    for plan in plans {
        let Written { plan, sheet, .. } = harness.written(plan);
        let wrong = turned(&plan, &sheet, &[(plan.n1 - 1, plan.n2 - 1)]);
        let mut spoilt = wrong.clone();
        set_unused_of_sheet(&plan, &mut spoilt, &mut harness.rng);
        if let Some(&last) = every_position(&plan).last() {
            assert_eq!(harness.altered(&plan, &sheet, last).0, 0);
            assert_eq!(harness.altered(&plan, &wrong, last).0, 18);
            taken += 1;
        }
        for position in beyond(&plan) {
            for sheet in [&sheet, &wrong] {
                let (answer, _) = harness.altered(&plan, sheet, position);
                assert_eq!(Answer::unpack(answer), Answer::refusal(17, 0, 0), "{position}");
                tally.count(answer);
            }
            tally.count(harness.altered(&plan, &spoilt, position).0);
        }
    }
    println!("the last position of {taken} plans");
    assert!(taken >= 50);
    tally.require("sheet_alter, positions of k or more", &[(17..=17, 1000), (13..=13, 500)]);
}

/// A plan that holds no data has no position: 17 for all, also where the sheet does not belong. It has two
/// cells, both check cells.
#[test]
fn no_position_where_there_is_no_data() {
    let mut harness = Harness::new(67);
    let bytes = no_data().encode();
    for position in beyond(&no_data()).into_iter().chain([2, 7, 8]) {
        for (sheet, told) in [
            (&[0x00][..], Answer::refusal(17, 0, 0)),
            (&[0x01], Answer::refusal(17, 0, 0)),
            (&[0x02], Answer::refusal(17, 0, 0)),
            (&[0x03], Answer::refusal(17, 0, 0)),
            (&[0x04], Answer::refusal(13, 0, 0)),
            (&[], Answer::refusal(11, 0, 0)),
        ] {
            let answer = harness.alter(&bytes, sheet, position);
            assert_eq!(Answer::unpack(answer), told, "{sheet:x?} at {position}");
        }
    }
}

/// Only the lower half of the register counts that the position is handed over in.
#[test]
fn upper_half_of_the_register() {
    let mut harness = Harness::new(68);
    let mut tally = Tally::default();
    for plan in [plan_s(), house_by_call()] {
        let Written { plan, bytes, sheet, .. } = harness.written(plan);
        for _ in 0..30 {
            let position = random_position(&plan, &mut harness.rng);
            let (mut left, mut expected) = (sheet.clone(), sheet.clone());
            let told = model::alter_accepted(&plan, &mut expected, position);
            let register = u64::from(position) | u64::from(harness.rng.bits(32)) << 32;
            let answer = alter_by_register(&bytes, &mut left, register);
            assert_eq!(Answer::unpack(answer), told, "register {register:x}");
            assert!(left == expected, "register {register:x}");
            tally.count(answer);
        }
    }
    tally.require("sheet_alter, by all of the register", &[(0..=0, 30), (17..=17, 10)]);
}

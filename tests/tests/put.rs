//! sheet_put_back, case by case, beside the model: answers worked out by hand, every sheet of the smallest plans with
//! every answer, the order of the checks, every number, each reason for 22 alone, each bit of an answer, small fields,
//! refusals as answers, full size.

use std::slice::from_ref;

use sheet_tests::answer::Answer;
use sheet_tests::cases::{plan_s, plan_t, plan_two_rows};
use sheet_tests::compared::{house_by_call, Harness};
use sheet_tests::damage::damaged;
use sheet_tests::given::{Given, HOUSE};
use sheet_tests::make::{accepted, accepted_of, burst_sizes, no_data, H_EVEN, V_EVEN};
use sheet_tests::model::{self, faults, Layout, FAULTS};
use sheet_tests::pairs::{edge_bursts, hopeless};
use sheet_tests::puts::{
    every_answer, every_small_answer, near_misses, packed, plan_eight, put_cases, random_answer,
    spoilt_answer,
};
use sheet_tests::refused::{
    any_sheet, first_of, lengths, number_if, plans_and_answers, spoilt, spoilt_lines, unused,
};
use sheet_tests::scans::{every_sheet, full_burst, random_data, random_sheet, turned};
use sheet_tests::stacks::Lent;
use sheet_tests::tally::Tally;

/// Answers by hand, put back and put back again. Where the sheet before belongs, the one after is read with just these
/// six numbers.
#[test]
fn worked_answers() {
    let mut harness = Harness::new(191);
    let mut read = 0;
    for (plan, before, six, after) in put_cases() {
        let bytes = plan.encode();
        let mut sheet = before.clone();
        assert_eq!(harness.library.put_back(&bytes, &mut sheet, packed(six)), 0, "{six:?}");
        assert_eq!(sheet, after, "{six:?}");
        if model::syndrome(&plan, &before) == 0 {
            let mut data = vec![0xaa; plan.data_len()];
            let answer = harness.library.read(&bytes, &mut sheet, &mut data);
            assert_eq!((answer, &sheet), (packed(six), &before), "{six:?}");
            assert_eq!(harness.library.put_back(&bytes, &mut sheet, answer), 0);
            read += 1;
        }
        assert_eq!(sheet, after);
        assert_eq!(harness.library.put_back(&bytes, &mut sheet, packed(six)), 0);
        assert_eq!(sheet, before, "{six:?} twice");
    }
    println!("{read} worked answers that are read too");
    assert!(read >= 12);
}

/// Every sheet of the smallest plans, with the answer of every burst: it need not belong, and exactly the cells are
/// turned over. And each is read and put back, by all readers.
#[test]
fn every_sheet_of_the_smallest_plans() {
    let mut harness = Harness::new(192);
    let (mut puts, mut tally) = (0, Tally::default());
    for plan in [plan_s(), plan_t(), plan_two_rows(), no_data()] {
        let answers = every_answer(&plan);
        for sheet in every_sheet(&plan) {
            for &answer in &answers {
                harness.puts(&plan, &sheet, answer);
                puts += 1;
            }
            tally.count(harness.restores(&plan, &sheet, true));
        }
    }
    // The empty burst, and of S 9 cells; of T 8 and 6 pairs; with two rows 6 and 4 pairs; 2 without data.
    assert_eq!(puts, 512 * 10 + 256 * 15 + 64 * 11 + 4 * 3);
    let taken = 32 * 10 + 4 * 15 + 2 * 11 + 3;
    assert_eq!([tally.met(0), tally.met(14)], [taken, 512 + 256 + 64 + 4 - taken]);
}

/// The first check that fails is told, whatever else is wrong: the plan's number before all others, then 11, 13 with
/// the byte, and 22. A refusal changes nothing.
#[test]
fn order_of_the_checks() {
    let mut harness = Harness::new(193);
    let mut tally = Tally::default();
    let layout = Layout::Rows;
    for (bytes, of_the_plan, plan) in plans_and_answers() {
        let full = full_burst(&plan, plan.n1 - plan.b1, plan.n2 - plan.b2);
        let good = model::smallest_rectangle(&full).pack();
        for sheet_len in lengths(layout, &plan) {
            let of_the_sheet = number_if(sheet_len != plan.sheet_len(), 11);
            for lines in spoilt_lines(layout, &plan) {
                let mut sheet = random_sheet(&plan, &mut harness.rng);
                sheet.resize(sheet_len, 0);
                let sheet = spoilt(layout, &plan, sheet, &lines);
                for answer in [0, good, 1, 14, 1 << 51, good ^ 1 << 5, good | 1 << 63, u64::MAX] {
                    let of_the_answer = number_if(answer != 0 && answer != good, 22);
                    let told = first_of(&[
                        of_the_plan,
                        of_the_sheet,
                        unused(layout, &plan, &lines),
                        of_the_answer,
                    ]);
                    let by_call = harness.put_back(&bytes, &sheet, answer);
                    assert_eq!(Answer::unpack(by_call), told, "{sheet:x?}, {answer:#x}");
                    tally.count(by_call);
                }
            }
        }
    }
    let least =
        [(0..=0, 6), (1..=10, 200), (23..=23, 200), (11..=11, 400), (13..=13, 70), (22..=22, 18)];
    tally.require("sheet_put_back, more than one check fails", &least);
}

/// Every number: good and damaged plans, sheets of every kind and of right and wrong lengths, answers of bursts and
/// others. No other number is met, not 12 or 14.
#[test]
fn every_number() {
    let mut harness = Harness::new(194);
    let mut tally = Tally::default();
    for (b1, b2) in burst_sizes() {
        for _ in 0..50 {
            let plan = accepted(&mut harness.rng, b1, b2, 8);
            for _ in 0..32 {
                let rng = &mut harness.rng;
                let bytes = if rng.one_in(3) { damaged(&plan, rng) } else { plan.encode() };
                let sheet = any_sheet(Layout::Rows, &plan, rng);
                let mut answer = random_answer(&plan, rng);
                if rng.one_in(3) {
                    answer = spoilt_answer(&plan, answer, rng);
                }
                tally.count(harness.put_back(&bytes, &sheet, answer));
            }
        }
    }
    let least = [
        (0..=0, 5000),
        (1..=10, 100),
        (23..=23, 100),
        (11..=11, 1000),
        (13..=13, 500),
        (22..=22, 2000),
    ];
    tally.require("sheet_put_back", &least);
    let others = [12].into_iter().chain(14..22).chain(24..32);
    assert!(others.into_iter().all(|number| tally.met(number) == 0));
}

/// The near misses: each has one reason for 22 and no other, and each reason is met.
#[test]
fn each_reason_alone() {
    let mut harness = Harness::new(195);
    let mut met = [0; FAULTS.len()];
    for (b1, b2) in burst_sizes() {
        for plan in [
            accepted(&mut harness.rng, b1, b2, 6),
            accepted_of(&mut harness.rng, [b1 + 1, b2 + 2, b1, b2]),
        ] {
            let sheet = random_sheet(&plan, &mut harness.rng);
            for (fault, answer) in near_misses(&plan) {
                assert_eq!(faults(&plan, answer), [fault]);
                let (told, left) = harness.put(&plan, &sheet, answer);
                assert_eq!(told, 22, "{fault:?}: {:?}", Answer::told_by(answer));
                assert!(left == sheet, "{fault:?} changes the sheet");
                met[FAULTS.iter().position(|&one| one == fault).expect("it is one of them")] += 1;
            }
        }
    }
    println!("turned back with 22 for one reason alone: {FAULTS:?}, {met:?}");
    assert!(met.iter().all(|&count| count >= 100));
}

/// Every answer of the smallest plans with each of its 64 bits turned over. It is taken only where that is the answer
/// of another burst, as with a cell in another row or column.
#[test]
fn each_bit_of_an_answer() {
    let mut harness = Harness::new(196);
    let mut tally = Tally::default();
    for plan in [plan_s(), plan_t(), plan_two_rows(), no_data()] {
        let answers = every_answer(&plan);
        for &answer in &answers {
            for bit in 0..64 {
                let other = answer ^ 1 << bit;
                let sheet = random_sheet(&plan, &mut harness.rng);
                let (told, _) = harness.put(&plan, &sheet, other);
                assert_eq!(told, if answers.contains(&other) { 0 } else { 22 }, "{other:#x}");
                tally.count(told);
            }
        }
    }
    tally.require("each bit of an answer", &[(0..=0, 40), (22..=22, 2000)]);
}

/// All answers of small fields under the smallest plans: taken are those of bursts, and no others.
#[test]
fn every_small_field() {
    let mut harness = Harness::new(197);
    let mut tally = Tally::default();
    for plan in [plan_s(), plan_t(), plan_two_rows(), no_data()] {
        let (answers, all) = (every_answer(&plan), every_small_answer(&plan));
        let mut taken = 0;
        for &answer in &all {
            let sheet = random_sheet(&plan, &mut harness.rng);
            let (told, _) = harness.put(&plan, &sheet, answer);
            assert_eq!(told, if answers.contains(&answer) { 0 } else { 22 }, "{answer:#x}");
            taken += usize::from(told == 0);
            tally.count(told);
        }
        assert_eq!(taken, answers.len());
    }
    tally.require("all answers of small fields", &[(0..=0, 39), (22..=22, 10_000)]);
}

/// What each call tells that turns something back is no answer of a burst: 22, for each number that there is.
#[test]
fn refusals_as_answers() {
    let mut harness = Harness::new(198);
    let (s, bytes) = (plan_s(), plan_s().encode());
    let sheet = model::write_sheet(&s, &[0x02]);
    let library = &mut harness.library;
    let mut refusals: Vec<u64> =
        plans_and_answers().iter().map(|(plan, _, _)| library.plan_test(plan)).collect();
    let (mut scan, mut data) = (sheet.clone(), [0xaa]);
    refusals.push(library.write(&bytes, &data, &mut scan[..2]));
    refusals.push(library.write(&bytes, &[], &mut scan));
    refusals.push(library.write(&bytes, &data, &mut scan));
    refusals.push(library.read(&bytes, &mut [0x03, 0x00, 0x00], &mut data));
    refusals.push(library.read(&bytes, &mut [0x03, 0x83, 0x00], &mut data));
    refusals.push(library.sums(&bytes, &sheet, 0..3, &mut [0; 7]));
    refusals.push(library.alter(&bytes, &mut scan, 5));
    refusals.push(library.alter(&bytes, &mut [0x03, 0x03, 0x01], 0));
    refusals.push(library.read_two(&bytes, &sheet, &[0x05, 0x05, 0x00], &mut data));
    let mut lent = Lent::new(&s, &[0], from_ref(&sheet), &mut harness.rng);
    lent.numbers.pop();
    refusals.push(library.read_stack(&bytes, &mut lent));
    lent.stack.pop();
    refusals.push(library.read_stack(&bytes, &mut lent));
    let no_constant = Given { v_low: 0, ..HOUSE };
    let few_cells = Given::new([512, 698, 3, 3], V_EVEN, H_EVEN);
    for given in [no_constant, few_cells] {
        refusals.push(library.plan_make(&given, &mut vec![0; given.plan_len()]));
    }
    refusals.push(library.put_back(&bytes, &mut scan, 1));
    let mut tally = Tally::default();
    for &refusal in refusals.iter().filter(|&&refusal| refusal != 0) {
        tally.count(refusal);
        let (told, left) = harness.put(&s, &sheet, refusal);
        assert_eq!((told, left), (22, sheet.clone()), "{:?}", Answer::unpack(refusal));
    }
    tally.require("refusals as answers", &[(1..=24, 1)]);
}

/// Full size, under the house plan: full bursts and single cells at corners, at edges and in the middle, on a sheet as
/// written and on random ones; each is read and put back. Then the near misses.
#[test]
fn full_size() {
    let mut harness = Harness::new(199);
    let plan = house_by_call();
    let written = model::write_sheet(&plan, &random_data(&plan, &mut harness.rng));
    let random = random_sheet(&plan, &mut harness.rng);
    let lost = hopeless(&plan, &mut harness.rng).expect("not every sheet can be mended");
    let corners = [(0, 0), (0, 697), (511, 0), (511, 697), (255, 300)].map(|cell| vec![cell]);
    let mut restored = 0;
    for cells in edge_bursts(&plan).into_iter().chain(corners).chain([vec![]]) {
        let answer = model::smallest_rectangle(&cells).pack();
        let scan = turned(&plan, &written, &cells);
        assert_eq!(harness.restores(&plan, &scan, false), answer);
        harness.puts(&plan, &random, answer);
        restored += 1;
    }
    assert_eq!((restored, harness.restores(&plan, &lost, false)), (15, 14));
    let misses = near_misses(&plan);
    let some: Vec<_> = misses.iter().step_by(7).collect();
    for &&(fault, answer) in &some {
        assert_eq!(harness.put(&plan, &written, answer).0, 22, "{fault:?}, {answer:#x}");
    }
    println!("{} near misses at full size", some.len());
    assert!(some.len() >= 100);
}

/// An answer of one plan under another: what is a burst there may be none here.
#[test]
fn answers_of_another_plan() {
    let mut harness = Harness::new(200);
    let mut tally = Tally::default();
    let plans = [plan_s(), plan_t(), plan_two_rows(), no_data(), plan_eight()];
    for (other, plan) in plans.iter().flat_map(|one| plans.iter().map(move |two| (one, two))) {
        for answer in every_answer(other) {
            let sheet = vec![0; plan.sheet_len()];
            let (told, _) = harness.put(plan, &sheet, answer);
            assert!(other != plan || told == 0);
            tally.count(told);
        }
    }
    tally.require("answers of another plan", &[(0..=0, 5000), (22..=22, 20_000)]);
}

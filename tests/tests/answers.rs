//! The answer and the model of request k of document 02 by themselves: the pattern, check 22, putting back.
//! Nothing here calls the library (`cargo test --no-default-features --test answers`).

use std::collections::BTreeSet;

use sheet_tests::answer::Answer;
use sheet_tests::cases::{plan_s, plan_t, plan_two_rows};
use sheet_tests::kinds::{sheet_of, KINDS};
use sheet_tests::make::{accepted, accepted_of, burst_sizes, no_data};
use sheet_tests::model::{self, faults, Cell, FAULTS};
use sheet_tests::plan::Plan;
use sheet_tests::puts::{
    differing_in_one, every_answer, every_small_answer, near_misses, packed, plan_eight, put_cases,
    random_answer, spoilt_answer,
};
use sheet_tests::rng::Rng;
use sheet_tests::scans::{every_burst, random_sheet, turned};
use sheet_tests::table;

/// Answers worked out by hand are put back, and the cells that they turn over have these six numbers.
#[test]
fn worked_answers() {
    for (plan, before, six, after) in put_cases() {
        let mut sheet = before.clone();
        let told = model::put_back(&plan.encode(), &mut sheet, packed(six));
        assert_eq!((told, &sheet), (Answer::default(), &after), "{six:?}");
        let differs = |&(i, j): &Cell| {
            let at = i * plan.row_len() + j / 8;
            (before[at] ^ after[at]) >> (j % 8) & 1 == 1
        };
        let cells: Vec<_> = model::cells(&plan).filter(differs).collect();
        assert_eq!(model::smallest_rectangle(&cells).mended(), six);
    }
}

/// Small plans: those worked out by hand, and one for each size of burst up to 3 × 4 and 4 × 3.
fn small_plans(rng: &mut Rng) -> Vec<Plan> {
    let mut plans = vec![plan_s(), plan_t(), plan_two_rows(), no_data()];
    for (b1, b2) in burst_sizes().filter(|(b1, b2)| b1 * b2 <= 9) {
        plans.push(accepted(rng, b1, b2, 4));
    }
    plans.extend([[4, 5, 3, 4], [5, 4, 4, 3]].map(|size| accepted_of(rng, size)));
    plans
}

/// The pattern by the bare definition: of all 65,536 numbers the one alone whose bits, r × width + s for row r and
/// column s, are cells of the burst just where the rectangle has any, and none beyond.
#[test]
fn patterns_of_bursts() {
    let mut bursts = 0;
    for plan in [plan_s(), plan_t(), plan_two_rows(), plan_eight()] {
        for cells in every_burst(&plan).step_by(97) {
            let Answer { top, left, height, width, pattern, .. } =
                model::smallest_rectangle(&cells);
            let bit = |r: u64, s: u64| r * width + s;
            let is_cell = |r, s| cells.contains(&((top + r) as usize, (left + s) as usize));
            let agrees = |number: &u64| {
                let inside = (0..height)
                    .all(|r| (0..width).all(|s| (number >> bit(r, s) & 1 == 1) == is_cell(r, s)));
                inside && number >> (height * width) == 0
            };
            let fitting: Vec<u64> = (0..1 << 16).filter(agrees).collect();
            assert_eq!(fitting, [pattern], "{cells:?}");
            bursts += 1;
        }
    }
    println!("{bursts} bursts, each beside all patterns");
    assert!(bursts >= 150);
}

/// 22 in one sentence: it is told unless the 64 bits are exactly the packed answer of some burst of the plan. The
/// reasons of 02, one by one, come to the same: on all answers, on such as differ in a field or a bit, on small
/// numbers, on random ones.
#[test]
fn reasons_and_the_sentence() {
    let mut rng = Rng::new(28);
    let (mut good, mut bad) = (0u64, 0u64);
    for plan in small_plans(&mut rng) {
        let answers: BTreeSet<u64> = every_answer(&plan).into_iter().collect();
        let mut compare = |answer: u64| {
            let is_good = faults(&plan, answer).is_empty();
            assert_eq!(is_good, answers.contains(&answer), "{:?}", Answer::told_by(answer));
            (good, bad) = (good + u64::from(is_good), bad + u64::from(!is_good));
        };
        answers.iter().copied().for_each(&mut compare);
        (0..1 << 12).for_each(&mut compare);
        near_misses(&plan).into_iter().for_each(|(_, answer)| compare(answer));
        if plan.b1 * plan.b2 <= 2 {
            every_small_answer(&plan).into_iter().for_each(&mut compare);
        }
        for _ in 0..2 {
            let answer = random_answer(&plan, &mut rng);
            differing_in_one(Answer::unpack(answer).mended()).for_each(&mut compare);
        }
        for _ in 0..200 {
            let answer = random_answer(&plan, &mut rng);
            (0..64).for_each(|bit| compare(answer ^ 1 << bit));
            (0..20).for_each(|_| compare(spoilt_answer(&plan, answer, &mut rng)));
        }
    }
    println!("{good} answers of bursts and {bad} others");
    assert!(good >= 20_000 && bad >= 1_000_000);
}

/// The near misses have their one reason and no other, and each reason is met alone.
#[test]
fn each_reason_alone() {
    let mut rng = Rng::new(29);
    let mut met = [0; FAULTS.len()];
    for (b1, b2) in burst_sizes() {
        for plan in [accepted(&mut rng, b1, b2, 5), accepted_of(&mut rng, [b1 + 1, b2 + 2, b1, b2])]
        {
            for (fault, answer) in near_misses(&plan) {
                assert_eq!(faults(&plan, answer), [fault], "{:?}", Answer::told_by(answer));
                met[FAULTS.iter().position(|&one| one == fault).expect("it is one of them")] += 1;
            }
        }
    }
    println!("turned back for one reason alone: {FAULTS:?}, {met:?}");
    assert!(met.iter().all(|&count| count >= 100));
}

/// 02 k), by the model: what was read is put back, and the scan is restored, bit for bit; put back twice is nothing.
#[test]
fn scans_restored() {
    let mut rng = Rng::new(30);
    let mut restored = 0;
    for (b1, b2) in burst_sizes() {
        for _ in 0..20 {
            let plan = accepted(&mut rng, b1, b2, 8);
            for kind in KINDS {
                let scan = sheet_of(&plan, kind, &mut rng);
                let (mut sheet, mut data) = (scan.clone(), vec![0; plan.data_len()]);
                let answer = model::read_accepted(&plan, &mut sheet, &mut data);
                if !answer.is_refusal() {
                    model::put_back_accepted(&plan, &mut sheet, answer.pack());
                    restored += 1;
                }
                assert_eq!(sheet, scan);
            }
            let (sheet, answer) = (random_sheet(&plan, &mut rng), random_answer(&plan, &mut rng));
            let mut left = sheet.clone();
            assert_eq!(model::put_back_accepted(&plan, &mut left, answer), Answer::default());
            let cells = model::cells_told(Answer::unpack(answer));
            assert_eq!(left, turned(&plan, &sheet, &cells));
            model::put_back_accepted(&plan, &mut left, answer);
            assert_eq!(left, sheet);
        }
    }
    println!("{restored} scans restored by the model");
    assert!(restored >= 600);
}

/// The table that the getters of the header are tested against (answers.c) is what the Rust makes of its answers.
#[test]
fn table_of_answers() {
    let stored = include_str!("../answers.expected");
    assert!(stored == table::answers(), "cargo run --bin answer_table prints another table");
    assert!(stored.lines().count() >= 300);
}

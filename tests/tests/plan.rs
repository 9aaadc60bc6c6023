//! sheet_plan_test beside the model: number and places, bit for bit.

use sheet_tests::answer::Answer;
use sheet_tests::cases::{plan_cases, plan_s, plan_t};
use sheet_tests::compared::plan_test;
use sheet_tests::damage::damaged;
use sheet_tests::ffi::Library;
use sheet_tests::make::{
    accepted, burst_sizes, largest_4x4, powers_1x1, powers_3x3, reversed_3x3, wide_3x3, CellOrder,
};
use sheet_tests::model;
use sheet_tests::plan::{field, set_header_field, Plan, HEADER_LEN};
use sheet_tests::rng::Rng;
use sheet_tests::tally::Tally;

/// Cases 1, 8, 9, 10 and 11 of 01.
#[test]
fn worked_plans() {
    let mut library = Library::new(1);
    for (bytes, (number, p, q)) in plan_cases() {
        let expected = Answer { number, p, q, ..Answer::default() };
        assert_eq!(library.plan_test(&bytes), expected.pack(), "{:?}", Plan::parse(&bytes));
    }
}

/// Thousands of accepted and damaged plans over all sizes of burst.
#[test]
fn random_plans() {
    let (mut library, mut rng) = (Library::new(2), Rng::new(3));
    let mut tally = Tally::default();
    let mut edges = Edges::default();
    for (b1, b2) in burst_sizes() {
        for round in 0..100 {
            // Small plans, and one in ten of middle size.
            let more = if round % 10 == 9 { 30 } else { 8 };
            let plan = accepted(&mut rng, b1, b2, more);
            edges.count(&plan);
            tally.count(plan_test(&mut library, &plan.encode()));
            for _ in 0..12 {
                tally.count(plan_test(&mut library, &damaged(&plan, &mut rng)));
            }
        }
    }
    edges.require(20);
    tally.require("sheet_plan_test", &[(0..=0, 300), (1..=10, 100), (23..=23, 100)]);
}

/// How many accepted plans were at an edge of what the rules allow.
#[derive(Default)]
struct Edges([(&'static str, u32); 10]);

impl Edges {
    fn count(&mut self, plan: &Plan) {
        let met = [
            ("n1 = b1", plan.n1 == plan.b1),
            ("n2 = b2", plan.n2 == plan.b2),
            ("windows only overlap", plan.n1 > plan.b1 && plan.n1 < 2 * plan.b1),
            ("strips only overlap", plan.n2 > plan.b2 && plan.n2 < 2 * plan.b2),
            ("windows and strips apart", plan.n1 >= 2 * plan.b1 && plan.n2 >= 2 * plan.b2),
            ("rv = 32", plan.rv == 32),
            ("rh = 32", plan.rh == 32),
            ("k = 0", plan.data_bits() == 0),
            ("t = 1", plan.t == 1),
            ("t = 2", plan.t == 2),
        ];
        for (edge, (name, is_met)) in self.0.iter_mut().zip(met) {
            *edge = (name, edge.1 + u32::from(is_met));
        }
    }

    fn require(&self, least: u32) {
        println!("accepted plans at an edge: {:?}", self.0);
        for (name, count) in self.0 {
            assert!(count >= least, "{name} was met fewer than {least} times");
        }
    }
}

/// Whole tables and check lists at random, not made to be accepted, and random headers.
#[test]
fn random_tables() {
    let (mut library, mut rng) = (Library::new(4), Rng::new(5));
    let mut tally = Tally::default();
    for (b1, b2) in burst_sizes() {
        for round in 0..100 {
            let mut plan = accepted(&mut rng, b1, b2, 10);
            let mut bytes = match round % 4 {
                0 => {
                    plan.v.fill_with(|| rng.bits(plan.rv));
                    plan.encode()
                }
                1 => {
                    plan.h.fill_with(|| rng.bits(plan.rh));
                    plan.encode()
                }
                2 => {
                    let (n1, n2) = (plan.n1, plan.n2);
                    plan.checks.fill_with(|| (rng.below(n1) as u16, rng.below(n2) as u16));
                    plan.checks.sort();
                    plan.encode()
                }
                _ => [rng.bytes(HEADER_LEN), plan.encode()[HEADER_LEN..].to_vec()].concat(),
            };
            tally.count(plan_test(&mut library, &bytes));
            // The same with noise at the end, where the check list is.
            let end = bytes.len();
            bytes[end - 4 * (plan.rv + plan.rh)..].fill_with(|| rng.bits(8) as u8);
            tally.count(plan_test(&mut library, &bytes));
        }
    }
    tally.require("sheet_plan_test, random tables", &[(2..=2, 100), (7..=9, 100), (10..=10, 50)]);
}

/// Every length about that of the header, with bytes of several kinds.
#[test]
fn shortest_inputs() {
    let (mut library, mut rng) = (Library::new(6), Rng::new(7));
    for len in 0..=HEADER_LEN + 1 {
        let short = |bytes: Vec<u8>| bytes[..len].to_vec();
        let mut inputs = vec![vec![0; len], vec![0xff; len], rng.bytes(len)];
        inputs.extend([plan_s(), plan_t()].map(|plan| short(plan.encode())));
        // A header that tells this very length.
        let mut own = plan_s().encode();
        set_header_field(&mut own, field::LENGTH, len as u16);
        inputs.push(short(own));
        for bytes in inputs {
            let answer = Answer::unpack(plan_test(&mut library, &bytes));
            assert_eq!(answer.number == 1, len < HEADER_LEN);
            assert_ne!(answer.number, 0);
        }
    }
}

/// Sizes beyond the limits whose layout agrees with them are refused all the same.
#[test]
fn too_large_but_consistent() {
    let mut library = Library::new(8);
    let sized = |n1: usize, n2: usize, b1: usize, b2: usize| Plan {
        n1,
        n2,
        b1,
        b2,
        v: vec![0; n1 * b2],
        h: vec![0; n2 * b1],
        ..plan_s()
    };
    for (plan, number) in [
        (sized(512, 698, 4, 4), 8),
        (sized(513, 698, 4, 4), 3),
        (sized(512, 699, 4, 4), 3),
        (sized(512, 698, 5, 4), 2),
        (sized(512, 698, 4, 5), 2),
        (sized(2, 3, 3, 3), 3),
        (sized(3, 2, 3, 3), 3),
        (sized(3, 3, 3, 3), 8),
        (Plan { rv: 33, checks: vec![(0, 0); 35], ..plan_s() }, 4),
        (Plan { rh: 33, checks: vec![(0, 0); 35], ..plan_s() }, 4),
        (Plan { rv: 32, checks: vec![(0, 0); 34], ..plan_s() }, 7),
        (Plan { rv: 0, checks: vec![(0, 0); 2], ..plan_s() }, 4),
        (Plan { rh: 0, checks: vec![(0, 0); 2], ..plan_s() }, 4),
    ] {
        let answer = plan_test(&mut library, &plan.encode());
        assert_eq!(Answer::unpack(answer).number, number, "{} x {}", plan.n1, plan.n2);
    }
}

/// 512 × 698 cells with bursts of one cell and with 3 × 3 bursts, and the largest plan with 4 × 4
/// bursts that we have.
#[test]
fn full_size() {
    let (mut library, mut rng) = (Library::new(9), Rng::new(10));
    for order in [CellOrder::Sheet, CellOrder::Scattered] {
        for plan in [
            powers_1x1(order, &mut rng),
            powers_3x3(512, 698, order, &mut rng),
            reversed_3x3(512, 698, order, &mut rng),
            largest_4x4(order, &mut rng),
        ] {
            assert_eq!(plan_test(&mut library, &plan.encode()), 0);
            for _ in 0..10 {
                plan_test(&mut library, &damaged(&plan, &mut rng));
            }
        }
    }
}

/// Full size, refused as late as can be. The last two windows that do not overlap hold the last
/// 2 × b1 rows, and the pairs after them hold only some of these rows; so no later pair can be the
/// first to fail. It is the same with strips.
#[test]
fn late_refusals() {
    let (mut library, mut rng) = (Library::new(11), Rng::new(12));
    let plan = wide_3x3(CellOrder::Scattered, &mut rng);
    assert_eq!(plan_test(&mut library, &plan.encode()), 0);
    let mut expect = |damaged: Plan, expected: Answer| {
        assert_eq!(Answer::unpack(plan_test(&mut library, &damaged.encode())), expected);
    };

    // The last V entry becomes that of an earlier row: the first window with that row is told.
    let last = plan.n1 - plan.b1;
    for first in [0, 1, 255, last - plan.b1] {
        let mut damaged = plan.clone();
        let row = first + plan.b1 - 1;
        damaged.v[plan.n1 * plan.b2 - 1] = plan.v[row * plan.b2];
        expect(damaged, Answer::refusal(8, first, last));
    }
    // The last H entry becomes that of an earlier column with the same remainder, some strips of
    // b2 columns before: the first strip with that column is told.
    let last = plan.n2 - plan.b2;
    for strips_before in [last / plan.b2, 100, 1] {
        let first = last - strips_before * plan.b2;
        let mut damaged = plan.clone();
        let column = first + plan.b2 - 1;
        damaged.h[plan.n2 * plan.b1 - 1] = plan.h[column * plan.b1 + plan.b1 - 1];
        expect(damaged, Answer::refusal(9, first, last));
    }
    // The last check cell becomes one of the last row whose joint entry the others make.
    let (_, others) = plan.checks.split_last().expect("there are check cells");
    let entries = others.iter().map(|&(i, j)| plan.joint(i.into(), j.into()));
    let made = |&j: &usize| model::solve(entries.clone(), plan.joint(plan.n1 - 1, j)).is_some();
    let column = (0..plan.n2).rev().find(made).expect("there is one");
    let mut damaged = plan.clone();
    damaged.checks[others.len()] = (plan.n1 as u16 - 1, column as u16);
    expect(damaged, Answer::refusal(10, others.len(), 0));
}

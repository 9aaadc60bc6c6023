//! sheet_plan_test and sheet_plan_make for bursts of at most one cell or two (02 m), beside the model:
//! plans worked out by hand, thousands of small ones accepted and damaged, the place of 23 among the
//! checks, full size.

use sheet_tests::answer::Answer;
use sheet_tests::cases::plan_t;
use sheet_tests::compared::{plan_test, told, Harness};
use sheet_tests::damage::damaged;
use sheet_tests::ffi::Library;
use sheet_tests::given::{random_given, Given};
use sheet_tests::make::{accepted_with, burst_sizes, CellOrder, Polynomial};
use sheet_tests::plan::{field, set_header_field, Plan};
use sheet_tests::rng::Rng;
use sheet_tests::sparse::{
    far_refusals, few_of_4x4, late_refusals, polynomials_4x4, reversed_4x4, sparse_cases, tight,
    wide_4x4, with_t,
};
use sheet_tests::tables::{of_powers, random, small_plan, with_entry_changed, Table};
use sheet_tests::tally::Tally;
use sheet_tests::yardstick::sparse_plan_test;

#[test]
fn worked_plans() {
    let mut library = Library::new(211);
    let cases = sparse_cases();
    for (bytes, (number, p, q)) in &cases {
        let expected = Answer { number: *number, p: *p, q: *q, ..Answer::default() };
        assert_eq!(library.plan_test(bytes), expected.pack(), "{:?}", Plan::parse(bytes));
    }
    println!("{} plans worked out by hand", cases.len());
    assert!(cases.len() >= 100);
}

/// Where any burst has at most t cells, the plan test tells what it tells for t = 0, places too.
#[test]
fn as_good_as_any() {
    let (mut library, mut rng) = (Library::new(212), Rng::new(212));
    let mut tally = Tally::default();
    for (b1, b2, t) in [(1, 1, 1), (1, 1, 2), (1, 2, 2), (2, 1, 2)] {
        for table in [random as Table, of_powers] {
            for _ in 0..500 {
                let plan = small_plan(&mut rng, [b1, b2, 0], table, table);
                let any = plan_test(&mut library, &plan.encode());
                let few = plan_test(&mut library, &with_t(&plan, t).encode());
                assert_eq!(Answer::unpack(few), Answer::unpack(any), "{plan:?}");
                tally.count(few);
            }
        }
    }
    tally.require("sheet_plan_test, t as good as 0", &[(0..=0, 150), (8..=10, 300)]);
}

/// A plan's tables for t of 0, 1 and 2: what each tells, and how often a plan is accepted for few cells but
/// not for more.
#[derive(Default)]
struct ByT {
    tallies: [Tally; 3],
    two_not_any: u64,
    one_not_two: u64,
    other_pairs: u64,
}

impl ByT {
    fn test(&mut self, library: &mut Library, plan: &Plan) {
        let answers = [0, 1, 2].map(|t| plan_test(library, &with_t(plan, t).encode()));
        for (tally, answer) in self.tallies.iter_mut().zip(answers) {
            tally.count(answer);
        }
        let [any, one, two] = answers.map(|answer| answer & 31);
        self.two_not_any += u64::from(two == 0 && (any == 8 || any == 9));
        self.one_not_two += u64::from(one == 0 && (two == 8 || two == 9));
        // The same check at another pair.
        self.other_pairs += u64::from(one == two && two == any && answers[1] != answers[2]);
    }

    fn require(&self, what: &str, least: u64, of_one_not_two: u64) {
        for (t, tally) in self.tallies.iter().enumerate() {
            tally.require(&format!("{what}, t {t}"), &[(0..=0, least / 10), (8..=10, least)]);
        }
        let ByT { two_not_any, one_not_two, other_pairs, .. } = self;
        println!("{what}: accepted for two cells but not for any: {two_not_any}");
        println!("{what}: accepted for one cell but not for two: {one_not_two}");
        println!("{what}: the same check at another pair: {other_pairs}");
        assert!(*two_not_any >= of_one_not_two && *one_not_two >= of_one_not_two);
        assert!(*other_pairs >= 50);
    }
}

/// Thousands of small plans with tables drawn at random and of powers, each for t of 0, 1 and 2.
#[test]
fn small_plans_by_t() {
    let (mut library, mut rng) = (Library::new(213), Rng::new(213));
    for (what, table) in [("random", random as Table), ("powers", of_powers)] {
        let mut by_t = ByT::default();
        for (b1, b2) in burst_sizes() {
            for drawn_for in [1, 2] {
                for _ in 0..100 {
                    let plan = small_plan(&mut rng, [b1, b2, drawn_for], table, table);
                    by_t.test(&mut library, &plan);
                }
            }
        }
        by_t.require(what, 100, 100);
    }
}

/// Plans with as few digits as can be filled, and each with one entry changed, at every place.
#[test]
fn tight_plans_by_t() {
    let (mut library, mut rng) = (Library::new(214), Rng::new(214));
    let (mut whole, mut changed, mut plans) = (ByT::default(), Tally::default(), 0);
    for (b1, b2) in burst_sizes() {
        for t in [1, 2] {
            for _ in 0..12 {
                let sizes = [b1 + rng.below(9), b2 + rng.below(9), b1, b2];
                let Some(plan) = tight(&mut rng, sizes, t) else { continue };
                whole.test(&mut library, &plan);
                plans += 1;
                for at in 0..plan.v.len() + plan.h.len() {
                    let other = with_entry_changed(&plan, at, &mut rng);
                    changed.count(plan_test(&mut library, &other.encode()));
                }
            }
        }
    }
    println!("{plans} tight plans");
    assert!(plans >= 200 && whole.one_not_two >= 30 && whole.two_not_any >= 50);
    changed
        .require("tight plans, one entry changed", &[(0..=0, 500), (8..=9, 500), (10..=10, 300)]);
}

/// Thousands of plans for few cells, accepted and damaged in every way; every number is met.
#[test]
fn random_plans() {
    let (mut library, mut rng) = (Library::new(215), Rng::new(215));
    for t in [1, 2] {
        let mut tally = Tally::default();
        for (b1, b2) in burst_sizes() {
            for round in 0..80 {
                let more = if round % 10 == 9 { 30 } else { 8 };
                let plan = accepted_with(&mut rng, [b1, b2, t], more);
                assert_eq!(plan_test(&mut library, &plan.encode()), 0, "{plan:?}");
                tally.count(0);
                for _ in 0..12 {
                    tally.count(plan_test(&mut library, &damaged(&plan, &mut rng)));
                }
            }
        }
        let least = [(0..=0, 1000), (1..=10, 100), (23..=23, 100)];
        tally.require(&format!("sheet_plan_test, t {t}"), &least);
    }
}

/// What is wrong with a plan, one fault for each check, in the order of the checks: 23 comes after 4 and
/// before 5.
type Fault = (u64, fn(&mut Vec<u8>));
const FAULTS: [Fault; 8] = [
    (2, |plan| set_header_field(plan, field::B1, 5)),
    (3, |plan| set_header_field(plan, field::N2, 699)),
    (4, |plan| set_header_field(plan, field::RV, 33)),
    (23, |plan| set_header_field(plan, field::T, 3)),
    (5, |plan| set_header_field(plan, field::V_OFFSET, 20)),
    // The last entry of V, and the row of the first check cell; then two entries of V that are alike.
    (6, |plan| plan[38 - 1] = 1),
    (7, |plan| plan[54] = 9),
    (8, |plan| plan.copy_within(26..30, 22)),
];

/// Of several checks that fail the first is told: every set of these, under T with t of 0, 1 and 2.
#[test]
fn order_of_the_checks() {
    let mut library = Library::new(216);
    let mut tally = Tally::default();
    for t in 0..=2 {
        for set in 0..1u32 << FAULTS.len() {
            let mut bytes = with_t(&plan_t(), t).encode();
            let chosen = FAULTS.iter().enumerate().filter(|(at, _)| set >> at & 1 == 1);
            // From the last to the first: a fault of the header moves no byte.
            chosen.clone().rev().for_each(|(_, (_, fault))| fault(&mut bytes));
            let first = chosen.clone().next().map_or(0, |(_, (number, _))| *number);
            let answer = plan_test(&mut library, &bytes);
            assert_eq!(answer & 31, first, "{set:b} with t {t}");
            tally.count(answer);
            // Every length below the header's is told before all of them.
            assert_eq!(plan_test(&mut library, &bytes[..21]), 1);
            let cut = Answer::unpack(plan_test(&mut library, &bytes[..22])).number;
            assert_eq!(cut, if [2, 3, 4, 23].contains(&first) { first } else { 5 });
        }
    }
    tally.require("sheet_plan_test, more than one check fails", &[(2..=8, 3), (23..=23, 48)]);
}

/// Every t in the header: 23 for all but 0, 1 and 2.
#[test]
fn every_t() {
    let mut library = Library::new(217);
    for t in 0..=u16::MAX {
        let mut bytes = plan_t().encode();
        set_header_field(&mut bytes, field::T, t);
        assert_eq!(library.plan_test(&bytes), if t <= 2 { 0 } else { 23 }, "{t}");
    }
}

/// Thousands of makings for few cells: what is made is accepted, and serves; the numbers are met.
#[test]
fn random_makings() {
    let mut harness = Harness::new(218);
    for t in [1, 2] {
        let (mut tally, mut fewer) = (Tally::default(), 0);
        for (b1, b2) in burst_sizes() {
            for _ in 0..120 {
                let given = Given { t, ..random_given(&mut harness.rng, b1, b2) };
                let outcome = harness.make_in_its_length(&given);
                tally.count(told(&outcome));
                if let Ok(plan) = outcome {
                    assert_eq!(plan.t, t as usize);
                    let any = harness.make_in_its_length(&Given { t: 0, ..given });
                    fewer += u32::from(any.is_err());
                }
            }
        }
        tally.require(
            &format!("sheet_plan_make, t {t}"),
            &[(0..=0, 300), (8..=9, 50), (16..=16, 50)],
        );
        println!("made for {t} cells but not for any: {fewer}");
        assert!(fewer >= 50);
    }
}

/// Every making for bursts of at most 2 × 2 on 3 × 3 and 4 × 4 cells, with all polynomials of degree at
/// most 4, for t of 1 and 2, and 3, which is turned back.
#[test]
fn every_small_making() {
    let mut harness = Harness::new(219);
    let mut tally = Tally::default();
    let of_degree =
        |degree| (1..1u32 << degree).step_by(2).map(move |low| Polynomial { degree, low });
    let all: Vec<Polynomial> = (1..=4).flat_map(of_degree).collect();
    for sizes in
        [[3, 3, 1, 2], [3, 3, 2, 1], [3, 3, 2, 2], [4, 4, 1, 2], [4, 4, 2, 1], [4, 4, 2, 2]]
    {
        for (v, h) in all.iter().flat_map(|&v| all.iter().map(move |&h| (v, h))) {
            for t in [1, 2, 3] {
                let given = Given { t, ..Given::new(sizes, v, h) };
                let answer = told(&harness.make_in_its_length(&given));
                assert_eq!(answer == 23, t == 3);
                tally.count(answer);
            }
        }
    }
    tally.require(
        "sheet_plan_make, small",
        &[(0..=0, 100), (8..=9, 300), (16..=16, 100), (23..=23, 1000)],
    );
}

/// 512 × 698 cells with bursts of at most one cell or two of 4 × 4, tables of powers and others: accepted,
/// and made; altered in one entry, and late refusals.
#[test]
fn full_size() {
    let (mut harness, mut rng) = (Harness::new(220), Rng::new(220));
    let full = [512, 698];
    for t in [1, 2] {
        let order = CellOrder::Scattered;
        let plans = [
            few_of_4x4(full, t, order, &mut rng),
            reversed_4x4(full, t, order, &mut rng),
            wide_4x4(t, order, &mut rng),
        ];
        for plan in plans {
            assert_eq!(plan_test(&mut harness.library, &plan.encode()), 0);
            let places = [0, plan.v.len() - 1, plan.v.len(), plan.v.len() + plan.h.len() - 1];
            let random = [(); 4].map(|()| rng.below(plan.v.len()));
            for at in places.into_iter().chain(random) {
                // The model takes seconds for them all; the Rust that the library is timed against does not.
                let bytes = with_entry_changed(&plan, at, &mut rng).encode();
                assert_eq!(harness.library.plan_test(&bytes), sparse_plan_test(&bytes), "{at}");
            }
        }
        for (plan, expected) in late_refusals(t, &mut rng) {
            let answer = plan_test(&mut harness.library, &plan.encode());
            assert_eq!(Answer::unpack(answer), expected);
        }
        for (plan, expected) in far_refusals() {
            let answer = plan_test(&mut harness.library, &plan.encode());
            assert_eq!(Answer::unpack(answer), expected);
        }
        let [v, h] = polynomials_4x4(t);
        let given = Given { t: t as u32, ..Given::new([512, 698, 4, 4], v, h) };
        let made = harness.make_in_its_length(&given).expect("it is made");
        assert_eq!(made, few_of_4x4(full, t, CellOrder::Sheet, &mut rng));
        // The tables do not serve for one cell more.
        let more =
            told(&harness.make_in_its_length(&Given { t: if t == 1 { 2 } else { 0 }, ..given }));
        assert_eq!(more & 31, 8);
    }
}

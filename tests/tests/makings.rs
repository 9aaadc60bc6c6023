//! sheet_plan_make beside the model, many makings: random ones, every small one, and full size. As in
//! tests/maker.rs every byte is compared, and every plan that is made must serve.

use sheet_tests::answer::Answer;
use sheet_tests::compared::{plan_test, told, Harness};
use sheet_tests::given::{altered, random_given, Given, HOUSE};
use sheet_tests::make::{
    burst_sizes, powers, Polynomial, H_3X3, H_4X4, H_EVEN, SINGLE, V_3X3, V_EVEN, WIDE,
};
use sheet_tests::plan::Plan;
use sheet_tests::rng::Rng;
use sheet_tests::tally::Tally;

/// Thousands of makings over all sizes of burst: good numbers and altered ones, in buffers of right
/// and wrong lengths.
#[test]
fn random_makings() {
    let mut harness = Harness::new(2);
    let mut tally = Tally::default();
    let mut made = Vec::new();
    let mut make = |harness: &mut Harness, given: &Given, len: usize| {
        let outcome = harness.make(given, len);
        tally.count(told(&outcome));
        made.extend(outcome);
    };
    for (b1, b2) in burst_sizes() {
        for _ in 0..200 {
            let given = random_given(&mut harness.rng, b1, b2);
            make(&mut harness, &given, given.plan_len());
            for _ in 0..5 {
                let other = altered(&given, &mut harness.rng);
                let len = any_length(&other, given.plan_len(), &mut harness.rng);
                make(&mut harness, &other, len);
            }
        }
    }
    tally.require(
        "sheet_plan_make",
        &[(0..=0, 500), (2..=5, 500), (8..=9, 500), (15..=16, 500), (23..=23, 300)],
    );
    require_edges(&made);
}

/// The length that these numbers ask for, if they ask for one; or that of others; or any.
fn any_length(given: &Given, of_others: usize, rng: &mut Rng) -> usize {
    match rng.below(8) {
        0 => rng.below(2 * of_others),
        1..=3 => of_others,
        _ if given.sizes().check_sizes().is_ok() => given.plan_len(),
        _ => of_others,
    }
}

/// A name, and which plans are at this edge of what the rules allow.
type Edge = (&'static str, fn(&Plan) -> bool);

/// Plans at each edge have been made.
fn require_edges(made: &[Plan]) {
    let edges: [Edge; 10] = [
        ("n1 = b1", |plan| plan.n1 == plan.b1),
        ("n2 = b2", |plan| plan.n2 == plan.b2),
        ("n1 x b2 = rv", |plan| plan.v.len() == plan.rv),
        ("n2 x b1 = rh", |plan| plan.h.len() == plan.rh),
        ("rv = 32", |plan| plan.rv == 32),
        ("rh = 32", |plan| plan.rh == 32),
        ("rh = 1", |plan| plan.rh == 1),
        ("k = 0", |plan| plan.data_bits() == 0),
        ("t = 1", |plan| plan.t == 1),
        ("t = 2", |plan| plan.t == 2),
    ];
    for (name, at_edge) in edges {
        let count = made.iter().filter(|plan| at_edge(plan)).count();
        println!("made plans with {name}: {count}");
        assert!(count >= 10, "{name} was met {count} times");
    }
}

/// Every making for bursts of at most 2 × 2 on at most 4 × 4 cells, with every two polynomials of
/// degree at most 5 and constant term 1. Where check cells are looked for, there are too few if
/// rv + rh is more than all cells, or if both polynomials have an even number of terms: then each
/// entry of either table has an odd number of digits 1, and each joint entry an even one.
#[test]
fn every_small_making() {
    let mut harness = Harness::new(3);
    let mut tally = Tally::default();
    let (mut beyond, mut even, mut full) = (0, 0, 0);
    for given in small_givens() {
        let answer = told(&harness.make_in_its_length(&given));
        tally.count(answer);
        let (checks, cells) = (given.rv + given.rh, given.n1 * given.n2);
        match Answer::unpack(answer).number {
            0 => {
                full += u32::from(checks == cells);
                assert!(checks <= cells, "{given:?}");
                assert!(!even_terms(given.v_low) || !even_terms(given.h_low), "{given:?}");
            }
            16 if checks > cells => beyond += 1,
            16 if even_terms(given.v_low) && even_terms(given.h_low) => even += 1,
            _ => (),
        }
    }
    tally.require("sheet_plan_make, small", &[(0..=0, 500), (8..=9, 1000), (16..=16, 1000)]);
    println!("16 with rv + rh over n1 x n2: {beyond}; else with even numbers of terms: {even}");
    println!("made with k = 0: {full}");
    assert!(beyond >= 100 && even >= 100 && full >= 10);
}

/// Has the polynomial an even number of terms? The degree itself is one more than those below.
fn even_terms(low: u32) -> bool {
    low.count_ones() % 2 == 1
}

/// Sizes up to 4 × 4 with bursts up to 2 × 2, and all polynomials of degree up to 5 that pass check 15.
fn small_givens() -> impl Iterator<Item = Given> {
    let of_degree =
        |degree| (1..1u32 << degree).step_by(2).map(move |low| Polynomial { degree, low });
    let polynomials: Vec<Polynomial> = (1..=5).flat_map(of_degree).collect();
    let pairs: Vec<_> =
        polynomials.iter().flat_map(|&v| polynomials.iter().map(move |&h| (v, h))).collect();
    let bursts = (1..=2).flat_map(|b1| (1..=2).map(move |b2| (b1, b2)));
    let sizes = bursts
        .flat_map(|(b1, b2)| (b1..=4).flat_map(move |n1| (b2..=4).map(move |n2| [n1, n2, b1, b2])));
    sizes
        .flat_map(move |sizes| pairs.clone().into_iter().map(move |(v, h)| Given::new(sizes, v, h)))
}

/// Two polynomials with an even number of terms each leave too few check cells at every size; where
/// one has an odd number, a plan can be made.
#[test]
fn even_numbers_of_terms() {
    let mut harness = Harness::new(9);
    let mut tally = Tally::default();
    let (mut odd_and_even, mut even_and_odd) = (0, 0);
    let with_terms = |odd: bool, degree: usize, rng: &mut Rng| {
        let low = rng.bits(degree) | 1;
        Polynomial { degree, low: if even_terms(low) == odd { low ^ 2 } else { low } }
    };
    for (b1, b2) in burst_sizes().filter(|(b1, b2)| b1 * b2 <= 9) {
        for _ in 0..20 {
            let sizes = [2 * b1 + 3, 2 * b2 + 3, b1, b2];
            let degrees = [(2 * b1 * b2 + 8).min(32), (b1 * b2 + 6).min(32)];
            let mut making = |v_odd: bool, h_odd: bool| {
                let v = with_terms(v_odd, degrees[0], &mut harness.rng);
                let h = with_terms(h_odd, degrees[1], &mut harness.rng);
                let given = Given::new(sizes.map(|size| size as u32), v, h);
                told(&harness.make_in_its_length(&given))
            };
            tally.count(making(false, false));
            odd_and_even += u32::from(making(true, false) == 0);
            even_and_odd += u32::from(making(false, true) == 0);
        }
    }
    tally.require("sheet_plan_make, even numbers of terms", &[(16..=16, 50)]);
    assert_eq!(tally.met(0), 0);
    println!("made with one odd number of terms: {odd_and_even} and {even_and_odd}");
    assert!(odd_and_even >= 20 && even_and_odd >= 20);
}

/// Where the maker tells 8 or 9, the plan test tells the same of a plan with these tables.
#[test]
fn places_are_those_of_the_plan_test() {
    let mut harness = Harness::new(14);
    let mut tally = Tally::default();
    for (b1, b2) in burst_sizes() {
        for _ in 0..100 {
            let given = random_given(&mut harness.rng, b1, b2);
            let sizes = given.sizes();
            let Err(refusal) = harness.make_in_its_length(&given) else { continue };
            if refusal.number == 16 || sizes.rv + sizes.rh > sizes.n1 * sizes.n2 {
                continue;
            }
            let plan = with_tables(&given);
            assert_eq!(plan_test(&mut harness.library, &plan.encode()), refusal.pack());
            tally.count(refusal.pack());
        }
    }
    tally.require("8 and 9 of the maker, told by the plan test too", &[(8..=9, 50)]);
}

/// The tables that the maker makes, with the first cells for check cells.
fn with_tables(given: &Given) -> Plan {
    let sizes = given.sizes();
    let v = Polynomial { degree: sizes.rv, low: given.v_low };
    let h = Polynomial { degree: sizes.rh, low: given.h_low };
    let cells = (0..sizes.n1 as u16).flat_map(|i| (0..sizes.n2 as u16).map(move |j| (i, j)));
    Plan {
        v: powers(sizes.n1 * sizes.b2, v),
        h: powers(sizes.n2 * sizes.b1, h),
        checks: cells.take(sizes.rv + sizes.rh).collect(),
        ..sizes
    }
}

/// 512 × 698 cells; the widest burst on as many columns; pairs of windows and of strips that fail far
/// apart; and two polynomials with an even number of terms that pass all pairs.
#[test]
fn full_size() {
    let mut harness = Harness::new(15);
    let full = |b| [512, 698, b, b];
    let polynomial = |degree, low| Polynomial { degree, low };
    for (given, expected) in [
        (Given::new(full(1), SINGLE, SINGLE), Answer::default()),
        (HOUSE, Answer::default()),
        (Given::new(full(3), WIDE, WIDE), Answer::default()),
        (Given::new([19, 698, 4, 4], polynomial(32, 0xd59e_3e53), H_4X4), Answer::default()),
        (Given::new(full(3), polynomial(24, 0xf7_9b15), H_3X3), Answer::refusal(8, 0, 482)),
        (Given::new(full(3), V_3X3, polynomial(14, 0x849)), Answer::refusal(9, 0, 427)),
        (Given::new(full(3), V_EVEN, H_EVEN), Answer::refusal(16, 0, 0)),
    ] {
        let answer = told(&harness.make_in_its_length(&given));
        assert_eq!(Answer::unpack(answer), expected, "{given:?}");
    }
}

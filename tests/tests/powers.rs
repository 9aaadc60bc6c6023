//! sheet_plan_test beside the model on tables of powers, in which each entry is z times the one before
//! modulo one polynomial, and on tables that are nearly so. Where z has an inverse, one row of pairs
//! decides for all; a plan test that takes this way for a table that is only nearly so is found here. All
//! of it for bursts of any cells, of at most one and of at most two.

use std::collections::BTreeSet;

use sheet_tests::answer::Answer;
use sheet_tests::compared::plan_test;
use sheet_tests::ffi::Library;
use sheet_tests::make::{burst_sizes, CellOrder};
use sheet_tests::plan::Plan;
use sheet_tests::rng::Rng;
use sheet_tests::tables::{
    from_another, of_powers, of_two_polynomials, random, shifted, small_plan, with_entry_changed,
    without_inverse, zeros, Table,
};
use sheet_tests::tally::Tally;

/// The plan with one entry changed, at each place in turn.
fn change_each(library: &mut Library, rng: &mut Rng, plan: &Plan, tally: &mut Tally) {
    for at in 0..plan.v.len() + plan.h.len() {
        let other = with_entry_changed(plan, at, rng);
        tally.count(plan_test(library, &other.encode()));
    }
}

/// The numbers that every way must meet so often: accepted, rows, columns, check cells.
fn require(tally: &Tally, what: &str, least: [u64; 4]) {
    let [accepted, rows, columns, checks] = least;
    let what = format!("sheet_plan_test, {what}");
    tally.require(&what, &[(0..=0, accepted), (8..=8, rows), (9..=9, columns), (10..=10, checks)]);
}

/// Thousands of plans of powers, and each of them with one entry changed, at every place.
#[test]
fn powers_and_one_entry_changed() {
    let (mut library, mut rng) = (Library::new(21), Rng::new(!21));
    let (mut v_degrees, mut h_degrees) = (BTreeSet::new(), BTreeSet::new());
    for (t, plans) in [(0, 250), (1, 120), (2, 120)] {
        let (mut whole, mut changed) = (Tally::default(), Tally::default());
        for (b1, b2) in burst_sizes() {
            for _ in 0..plans {
                let plan = small_plan(&mut rng, [b1, b2, t], of_powers, of_powers);
                v_degrees.insert(plan.rv);
                h_degrees.insert(plan.rh);
                whole.count(plan_test(&mut library, &plan.encode()));
                change_each(&mut library, &mut rng, &plan, &mut changed);
            }
        }
        require(&whole, &format!("t {t}, powers"), [400, 300, 300, 400]);
        let least = [5000, 10_000, 10_000, 10_000];
        require(&changed, &format!("t {t}, powers with one entry changed"), least);
    }
    assert!(v_degrees.into_iter().eq(1..=32) && h_degrees.into_iter().eq(1..=32));
}

/// Tables of other kinds, one or both.
#[test]
fn near_powers() {
    let (mut library, mut rng) = (Library::new(22), Rng::new(!22));
    let some = [20, 200, 200, 100];
    let kinds: [(&str, Table, Table, [u64; 4]); 11] = [
        ("V of powers, H random", of_powers, random, some),
        ("V random, H of powers", random, of_powers, some),
        ("constant term 0", without_inverse, without_inverse, some),
        ("constant term 0 in V", without_inverse, of_powers, some),
        ("constant term 0 in H", of_powers, without_inverse, some),
        ("from another entry than 1", from_another, from_another, some),
        ("two polynomials in V", of_two_polynomials, of_powers, some),
        ("two polynomials in H", of_powers, of_two_polynomials, some),
        ("shifted out", shifted, shifted, [5, 200, 200, 20]),
        // A window of zeros is dependent; so are two strips, where there are two.
        ("V all 0", zeros, of_powers, [0, 1600, 0, 0]),
        ("H all 0", of_powers, zeros, [0, 200, 200, 10]),
    ];
    for (what, v, h, least) in kinds {
        for t in 0..=2 {
            let mut tally = Tally::default();
            for (b1, b2) in burst_sizes() {
                for _ in 0..100 {
                    let plan = small_plan(&mut rng, [b1, b2, t], v, h);
                    tally.count(plan_test(&mut library, &plan.encode()));
                }
            }
            require(&tally, &format!("t {t}, {what}"), least);
        }
    }
}

/// A table of at most as many entries as they have bits is 1, 2, 4, ..: nothing is reduced, and every
/// polynomial makes the same table. One entry changed is tried at every place too.
#[test]
fn nothing_reduced() {
    let (mut library, mut rng) = (Library::new(23), Rng::new(!23));
    let short_v: fn(&Plan) -> bool = |plan| plan.v.len() <= plan.rv;
    let short_h: fn(&Plan) -> bool = |plan| plan.h.len() <= plan.rh;
    for (what, short, least) in
        [("short V", short_v, [10, 0, 50, 50]), ("short H", short_h, [5, 50, 0, 50])]
    {
        for t in 0..=2 {
            let (mut whole, mut changed) = (Tally::default(), Tally::default());
            for (b1, b2) in burst_sizes() {
                let mut found = 0;
                while found < 50 {
                    let plan = small_plan(&mut rng, [b1, b2, t], of_powers, of_powers);
                    if short(&plan) {
                        found += 1;
                        whole.count(plan_test(&mut library, &plan.encode()));
                        change_each(&mut library, &mut rng, &plan, &mut changed);
                    }
                }
            }
            let what = format!("t {t}, {what}");
            require(&whole, &what, least);
            require(&changed, &format!("{what}, one entry changed"), [100, 500, 100, 500]);
        }
    }
}

/// Full size, where the first pair that fails may lie far apart. The narrower the entries, the sooner
/// a pair fails, and from some width on none does.
#[test]
fn full_size() {
    let (mut library, mut rng) = (Library::new(24), Rng::new(!24));
    for (t, least_rv, least_rh) in [(0, 18, 9), (1, 7, 6), (2, 13, 9)] {
        let mut tally = Tally::default();
        let mut farthest = [0; 15];
        let mut accepted = None;
        for round in 0..30 {
            let narrow_rv = round % 2 == 0;
            let rv = if narrow_rv { least_rv + round % 15 } else { 32 };
            let rh = if narrow_rv { 32 } else { least_rh + round % 13 };
            let v = of_powers(&mut rng, 3 * 512, rv);
            let h = of_powers(&mut rng, 3 * 698, rh);
            let plan = Plan { n1: 512, n2: 698, b1: 3, b2: 3, t, rv, rh, v, h, checks: vec![] };
            let plan = plan.with_any_checks(CellOrder::Sheet, &mut rng);
            let answer = plan_test(&mut library, &plan.encode());
            tally.count(answer);
            let Answer { number, q, .. } = Answer::unpack(answer);
            farthest[number as usize] = q.max(farthest[number as usize]);
            if number == 0 {
                accepted.get_or_insert(plan);
            }
        }
        let plan = accepted.expect("some plan is accepted");
        for at in [0, plan.v.len() - 1, plan.v.len(), plan.v.len() + plan.h.len() - 1] {
            let other = with_entry_changed(&plan, at, &mut rng);
            tally.count(plan_test(&mut library, &other.encode()));
        }
        require(&tally, &format!("t {t}, full size"), [5, 5, 5, 0]);
        println!("farthest apart: windows {}, strips {}", farthest[8], farthest[9]);
        assert!(farthest[8] >= 100 && farthest[9] >= 100);
    }
}

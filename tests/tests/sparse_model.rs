//! The model of 02's request m tested by itself: plans worked out by hand, checks 8 and 9 against the bare
//! definition, bursts of few cells. Nothing here calls the library (`cargo test --no-default-features
//! --test sparse_model`).

use std::collections::{BTreeMap, BTreeSet};

use sheet_tests::answer::{Answer, Places};
use sheet_tests::cases::{plan_s, plan_t};
use sheet_tests::given::Given;
use sheet_tests::make::{accepted_with, burst_sizes, CellOrder};
use sheet_tests::model::{self, smallest_rectangle};
use sheet_tests::plan::{Plan, HEADER_LEN};
use sheet_tests::rng::Rng;
use sheet_tests::scans::{every_burst, every_denser_burst, random_data, turned};
use sheet_tests::sparse::{few_of_4x4, polynomials_4x4, reversed_4x4, sparse_cases, tight, with_t};
use sheet_tests::tables::{of_powers, random, small_plan};
use sheet_tests::tally::Tally;
use sheet_tests::yardstick;

/// S has 62 bytes and T 78; t stands after the length, in the last two bytes of the header.
#[test]
fn bytes_of_a_plan() {
    assert_eq!([plan_s(), plan_t()].map(|plan| plan.encode().len()), [62, 78]);
    for t in [0, 1, 2, 3, 258] {
        let bytes = with_t(&plan_t(), t).encode();
        assert_eq!(bytes[HEADER_LEN - 2..HEADER_LEN], (t as u16).to_le_bytes());
        assert_eq!(bytes[HEADER_LEN..], plan_t().encode()[HEADER_LEN..]);
    }
}

#[test]
fn worked_plans() {
    for (bytes, expected) in sparse_cases() {
        assert_eq!(model::test_plan(&bytes).places(), expected, "{:?}", Plan::parse(&bytes));
    }
}

/// Check 8 by the bare definition: subsets of all positions of the table, as masks. Each that has at most t
/// positions and lies in a window is listed with that window and its sum.
fn first_windows(plan: &Plan) -> Places {
    let all = plan.n1 * plan.b2;
    let sum =
        |set: u32| (0..all).filter(|at| set >> at & 1 == 1).fold(0, |sum, at| sum ^ plan.v[at]);
    let window =
        |top: usize| (top * plan.b2..(top + plan.b1) * plan.b2).fold(0, |w, at| w | 1u32 << at);
    let small: Vec<_> =
        (0..1u32 << all).filter(|set| set.count_ones() as usize <= plan.t).collect();
    let windows = 0..=plan.n1 - plan.b1;
    let pairs = windows.clone().flat_map(|i| (i..=plan.n1 - plan.b1).map(move |i2| (i, i2)));
    pairs.into_iter().find(|&(i, i2)| {
        let within = |top: usize| small.iter().filter(move |&&set| set & !window(top) == 0);
        within(i).any(|&one| within(i2).any(|&other| one != other && sum(one) == sum(other)))
    })
}

/// Check 9 by the bare definition: all nonempty subsets of the members that have at most t of them.
fn first_strips(plan: &Plan) -> Places {
    let strips = plan.n2 - plan.b2 + 1;
    let mut pairs = (0..strips).flat_map(|c| (c + 1..strips).map(move |c2| (c, c2)));
    pairs.find(|&(c, c2)| {
        let members: Vec<_> = model::strip_members(plan, c, c2).collect();
        let sum = |set: u32| {
            members
                .iter()
                .enumerate()
                .filter(|(at, _)| set >> at & 1 == 1)
                .fold(0, |s, (_, m)| s ^ m)
        };
        let mut sets = 1..1u32 << members.len();
        sets.any(|set| set.count_ones() as usize <= plan.t && sum(set) == 0)
    })
}

/// The model's checks 8 and 9 are those of the bare definition, first pairs too, on plans of few positions
/// and digits.
#[test]
fn sets_by_the_bare_definition() {
    let mut rng = Rng::new(61);
    let mut tally = Tally::default();
    for (b1, b2) in burst_sizes().filter(|(b1, b2)| b1 * b2 <= 8) {
        for t in [1, 2] {
            for _ in 0..60 {
                let (n1, n2) = (rng.within(b1, b1 + 2), rng.within(b2, b2 + 4));
                if n1 * b2 > 14 {
                    continue;
                }
                let (rv, rh) = (rng.within(2, 9), rng.within(1, 6));
                let v = random(&mut rng, n1 * b2, rv);
                let h = random(&mut rng, n2 * b1, rh);
                let plan = Plan { n1, n2, b1, b2, t, rv, rh, v, h, checks: Vec::new() };
                let plan = plan.with_any_checks(CellOrder::Sheet, &mut rng);
                if plan.checks.len() < rv + rh {
                    continue;
                }
                let bare = match (first_windows(&plan), first_strips(&plan)) {
                    (Some((i, i2)), _) => Answer::refusal(8, i, i2),
                    (None, Some((c, c2))) => Answer::refusal(9, c, c2),
                    (None, None) => Answer::default(),
                };
                let told = model::test_plan(&plan.encode());
                // Check 10 comes after these two.
                let told = if told.number == 10 { Answer::default() } else { told };
                assert_eq!(told, bare, "{plan:?}");
                tally.count(told.pack());
            }
        }
    }
    tally.require("by the bare definition", &[(0..=0, 100), (8..=9, 100)]);
}

/// With so few cells in a rectangle that any burst has at most t, t is as good as 0, places and all: t of 2
/// with at most two cells, t of 1 with one.
#[test]
fn as_good_as_any() {
    let mut rng = Rng::new(62);
    let mut tally = Tally::default();
    for (b1, b2, t) in [(1, 1, 1), (1, 1, 2), (1, 2, 2), (2, 1, 2)] {
        for table in [random, of_powers] {
            for _ in 0..400 {
                let plan = small_plan(&mut rng, [b1, b2, 0], table, table);
                let told = model::test_plan(&plan.encode());
                assert_eq!(model::test_plan(&with_t(&plan, t).encode()), told, "{plan:?}");
                tally.count(told.pack());
            }
        }
    }
    tally.require("t as good as 0", &[(0..=0, 100), (8..=10, 100)]);
}

/// What is accepted for bursts of any cells is accepted for such of two, and that for such of one.
#[test]
fn fewer_cells_ask_less() {
    let mut rng = Rng::new(63);
    let mut more = [0; 2];
    for (b1, b2) in burst_sizes() {
        for _ in 0..12 {
            for t in [1, 2] {
                let sizes = [2 * b1 + rng.below(4), 2 * b2 + rng.below(4), b1, b2];
                let Some(plan) = tight(&mut rng, sizes, t) else { continue };
                let [any, one, two] =
                    [0, 1, 2].map(|t| !model::test_plan(&with_t(&plan, t).encode()).is_refusal());
                assert!((one || !two) && (two || !any), "{plan:?}");
                more[0] += usize::from(two && !any);
                more[1] += usize::from(one && !two);
            }
        }
    }
    println!(
        "accepted for two cells but not for any: {}; for one but not for two: {}",
        more[0], more[1]
    );
    assert!(more.iter().all(|&count| count >= 100));
}

/// Demand 3 in the model, for every burst of at most t cells: different bursts have different sums, and
/// each is mended and told.
#[test]
fn every_burst_of_few_cells() {
    let mut rng = Rng::new(64);
    let mut bursts = 0;
    for (b1, b2) in burst_sizes() {
        for (t, is_tight) in [(1, false), (1, true), (2, false), (2, true)] {
            let few = accepted_with(&mut rng, [b1, b2, t], 6);
            let sizes = [2 * b1 + 2, 2 * b2 + 3, b1, b2];
            let plan = tight(&mut rng, sizes, t).filter(|_| is_tight).unwrap_or(few);
            let text = random_data(&plan, &mut rng);
            let sheet = model::write_sheet(&plan, &text);
            let mut sums = BTreeMap::new();
            for cells in every_burst(&plan) {
                assert!(cells.len() <= t);
                let sum = cells.iter().fold(0, |sum, &(i, j)| sum ^ plan.joint(i, j));
                assert_eq!(*sums.entry(sum).or_insert(cells.clone()), cells, "{plan:?}");
                let (mut scan, mut data) = (turned(&plan, &sheet, &cells), rng.bytes(text.len()));
                let answer = model::read_accepted(&plan, &mut scan, &mut data);
                assert_eq!(answer, smallest_rectangle(&cells));
                assert_eq!((&scan, &data), (&sheet, &text));
                bursts += 1;
            }
        }
    }
    println!("{bursts} bursts of at most one cell or two");
    assert!(bursts >= 10_000);
}

/// One cell more than a burst has: of the sheets that come of it some are mended, to another sheet; and if
/// the model mends it, by at most t cells.
#[test]
fn denser_bursts() {
    let mut rng = Rng::new(65);
    let (mut lost, mut mended) = (0, 0);
    for (b1, b2) in burst_sizes().filter(|(b1, b2)| b1 * b2 > 1) {
        for t in [1, 2] {
            for _ in 0..4 {
                let sizes = [b1 + rng.below(6), b2 + rng.below(6), b1, b2];
                let Some(plan) = tight(&mut rng, sizes, t) else { continue };
                let sheet = model::write_sheet(&plan, &random_data(&plan, &mut rng));
                for cells in every_denser_burst(&plan) {
                    let scan = turned(&plan, &sheet, &cells);
                    let found = model::burst_by_search(&plan, &scan);
                    // Of larger rectangles there are many patterns.
                    if b1 * b2 <= 6 {
                        assert_eq!(found, model::burst_by_trial(&plan, &scan));
                    }
                    match found {
                        Some(burst) => {
                            assert!(burst.len() <= t && turned(&plan, &scan, &burst) != sheet);
                            mended += 1;
                        }
                        None => lost += 1,
                    }
                }
            }
        }
    }
    println!("one cell too many: {lost} cannot be mended, {mended} are mended to another sheet");
    assert!(lost >= 5000 && mended >= 500);
}

/// Plans of full size: of powers and of others, by the model's trial of all sets and by the Rust that the
/// library is timed against; made from the polynomials.
#[test]
fn full_size() {
    let mut rng = Rng::new(66);
    for t in [1, 2] {
        let order = CellOrder::Sheet;
        let plan = few_of_4x4([512, 698], t, order, &mut rng);
        let [v, h] = polynomials_4x4(t);
        let given = Given { t: t as u32, ..Given::new([512, 698, 4, 4], v, h) };
        assert_eq!(model::made_plan(&given, given.plan_len()), Ok(plan.clone()));
        assert_eq!(yardstick::one_row_plan_make(&given, &mut plan.encode()), 0);
        let others = reversed_4x4([512, 698], t, order, &mut rng);
        assert_ne!(others.v, plan.v);
        for bytes in [plan.encode(), others.encode()] {
            assert_eq!(model::test_plan(&bytes), Answer::default());
            assert_eq!(yardstick::sparse_plan_test(&bytes), 0);
        }
        // No smaller burst asks for more: the entries of one cell alone are all different.
        let entries: BTreeSet<_> = plan.v.iter().collect();
        assert!(entries.len() == plan.v.len() && !entries.contains(&0));
    }
}

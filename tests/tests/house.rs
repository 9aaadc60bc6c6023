//! sheet_house_plan beside the model and beside the maker: the answer and every byte of the buffer. Its
//! column table beside the constant, the stored output of housetable and the sentence of request d.
//! Sheets written and read under it.

use std::collections::BTreeSet;

use sheet_tests::answer::Answer;
use sheet_tests::compared::{house_by_call, told, Harness};
use sheet_tests::ffi::{house_plan, Library};
use sheet_tests::given::{Given, HOUSE};
use sheet_tests::house;
use sheet_tests::make::{Polynomial, H_3X3, V_3X3, V_EVEN, WIDE};
use sheet_tests::plan::Plan;
use sheet_tests::rng::Rng;
use sheet_tests::scans::{burst, random_burst, random_sheet, turned};
use sheet_tests::tally::Tally;

/// The plan is the maker's and the model's whatever the buffer held. With each bit of the plan turned
/// over before, no byte that the call leaves alone is right.
#[test]
fn whatever_the_buffer_held() {
    let mut harness = Harness::new(31);
    let mut tally = Tally::default();
    let len = HOUSE.plan_len();
    let mut by_maker = vec![0; len];
    assert_eq!(harness.library.plan_make(&HOUSE, &mut by_maker), 0);
    let turned_over = by_maker.iter().map(|byte| !byte).collect();
    let random = harness.rng.bytes(len);
    for held in [vec![0; len], vec![0xff; len], by_maker.clone(), turned_over, random] {
        let outcome = harness.house_plan(held);
        tally.count(told(&outcome));
        let plan = outcome.expect("the house plan is made");
        assert!(plan.encode() == by_maker, "the maker makes another plan");
    }
    tally.require("sheet_house_plan", &[(0..=0, 5)]);
}

/// Every other length is turned back with 5: short ones, those about the right one, such as differ from
/// it by 256 or 65,536, multiples, and random ones. No byte changes.
#[test]
fn other_lengths() {
    let mut harness = Harness::new(32);
    let mut tally = Tally::default();
    let right = HOUSE.plan_len();
    let about = (right - 40..right).chain(right + 1..=right + 40);
    let far = [right / 2, 2 * right, 3 * right, right + 256, right + 65_536, right + 131_072];
    let random: Vec<_> = (0..400).map(|_| harness.rng.below(3 * right)).collect();
    for len in (0..=40).chain(about).chain(far).chain(random).filter(|&len| len != right) {
        let held = harness.rng.bytes(len);
        let outcome = harness.house_plan(held);
        assert_eq!(outcome, Err(Answer::refusal(5, 0, 0)), "{len}");
        tally.count(told(&outcome));
    }
    for null in [false, true] {
        let answer = house_plan(&mut [], null);
        assert_eq!(answer, 5, "null: {null}");
        tally.count(answer);
    }
    tally.require("sheet_house_plan, other lengths", &[(5..=5, 500)]);
}

/// One table: in the plan, in the constant, in the stored output, and by the sentence.
#[test]
fn column_table() {
    let columns = house::columns();
    assert!(house_by_call().h == columns, "the plan has another table");
    assert!(house::constant() == columns, "the constant is another table");
    assert!(house::stored() == house::printed(), "the stored output is that of another table");
}

/// The sentence at every entry of the constant: the first is 1; and each next one is z times the one
/// before, where that is below the degree, else with the house polynomial taken away.
#[test]
fn sentence_of_the_column_table() {
    let entries = house::constant();
    let polynomial = 1 << H_3X3.degree | H_3X3.low;
    assert_eq!((entries.len(), entries[0]), (2094, 1));
    for (k, pair) in entries.windows(2).enumerate() {
        let taken_away = pair[0] << 1 ^ pair[1];
        let reduced = pair[1] >> H_3X3.degree == 0;
        assert!(reduced && [0, polynomial].contains(&taken_away), "entry {}", k + 1);
    }
}

/// A plan of this size that is made with the house polynomial for its columns has this column table,
/// whatever the polynomial for its rows. Of random ones of degree 25 about one in four serves, and of
/// higher degrees more.
#[test]
fn other_row_polynomials() {
    let (mut library, mut rng) = (Library::new(33), Rng::new(!33));
    let mut tally = Tally::default();
    let mut degrees = BTreeSet::new();
    let columns = house::columns();
    let of_degree = |degree| Polynomial { degree, low: rng.bits(degree) | 1 };
    let random: Vec<_> = (25..=32).flat_map(|degree| [degree; 40]).map(of_degree).collect();
    for v in [V_3X3, V_EVEN, WIDE].into_iter().chain(random) {
        let given = Given { rv: v.degree as u32, v_low: v.low, ..HOUSE };
        let mut bytes = vec![0; given.plan_len()];
        let answer = library.plan_make(&given, &mut bytes);
        tally.count(answer);
        if answer == 0 {
            let plan = Plan::parse(&bytes).expect("a made plan is of the right form");
            assert!(plan.h == columns, "another table with {v:?}");
            degrees.insert(v.degree);
        }
    }
    tally
        .require("sheet_plan_make, the house polynomial for columns", &[(0..=0, 100), (8..=8, 50)]);
    assert!(degrees.into_iter().eq([22, 24, 25, 26, 27, 28, 29, 30, 31, 32]));
}

/// Sheets of several data, with a full burst in each corner, with none, and with random ones. Two bursts
/// and a random sheet are read as the model reads them.
#[test]
fn sheets() {
    let mut harness = Harness::new(34);
    let mut tally = Tally::default();
    let mut bursts = 0;
    for _ in 0..3 {
        let written = harness.written(house_by_call());
        let plan = &written.plan;
        let (bottom, right) = (plan.n1 - plan.b1, plan.n2 - plan.b2);
        let corners = [(0, 0), (0, right), (bottom, 0), (bottom, right)];
        let full = corners.map(|(top, left)| burst(plan, top, left, u32::MAX));
        let random = (0..100).map(|_| random_burst(plan, &mut harness.rng));
        for cells in random.collect::<Vec<_>>().iter().chain(&full).chain([&vec![]]) {
            harness.mends(&written, cells);
            bursts += 1;
        }
        let two_bursts = turned(plan, &turned(plan, &written.sheet, &full[0]), &full[3]);
        for scan in [two_bursts, random_sheet(plan, &mut harness.rng)] {
            tally.count(harness.read(&written.bytes, &scan, written.data.len()));
        }
    }
    println!("{bursts} bursts on sheets of the house plan");
    tally.require("sheet_read, sheets of the house plan", &[(14..=14, 6)]);
}

//! 02 l): how few check cells there can be, on the compiled plan test. For every size of burst a plan that has as few is
//! accepted, and serves; with one digit fewer no tables are accepted; and where a sheet has no room for two windows, or for
//! two strips, fewer do.

use sheet_tests::answer::Answer;
use sheet_tests::cases::{plan_s, plan_t, plan_two_rows};
use sheet_tests::compared::{plan_test, Harness};
use sheet_tests::ffi::Library;
use sheet_tests::make::{burst_sizes, CellOrder};
use sheet_tests::model::Layout;
use sheet_tests::plan::Plan;
use sheet_tests::rng::Rng;
use sheet_tests::scans::{burst, every_burst, random_burst};
use sheet_tests::sparse::tight;

/// The least rv and the least rh, by 02's sentence.
fn floors(plan: &Plan) -> (usize, usize) {
    (2 * plan.b1 * plan.b2, plan.b1 * plan.b2)
}

fn two_windows(plan: &Plan) -> bool {
    plan.n1 >= 2 * plan.b1
}

fn two_strips(plan: &Plan) -> bool {
    plan.n2 >= 2 * plan.b2
}

/// A sheet of just two windows by two strips. Each V entry has a digit of its own; the columns of the first strip have H
/// entry 0, and each other H entry has a digit of its own.
fn at_floor(b1: usize, b2: usize) -> Plan {
    let (rv, rh) = (2 * b1 * b2, b1 * b2);
    let v = (0..rv).map(|k| 1 << k).collect();
    let h = (0..rh).map(|_| 0).chain((0..rh).map(|k| 1 << k)).collect();
    let shape = Plan { n1: 2 * b1, n2: 2 * b2, b1, b2, t: 0, rv, rh, v, h, checks: Vec::new() };
    shape.with_checks(CellOrder::Sheet, &mut Rng::new(51)).expect("there are enough cells")
}

/// The number that the plan test tells, which is the model's.
fn number(library: &mut Library, plan: &Plan) -> u64 {
    Answer::unpack(plan_test(library, &plan.encode())).number
}

/// Document 01's T meets both floors, and S that of rv.
#[test]
fn small_plans_meet_them() {
    let mut library = Library::new(52);
    let (s, t) = (plan_s(), plan_t());
    assert!(two_windows(&t) && two_strips(&t));
    assert_eq!((t.rv, t.rh), floors(&t));
    assert_eq!(t.checks.len(), 3 * t.b1 * t.b2);
    assert_eq!(t, at_floor(t.b1, t.b2));
    assert_eq!(number(&mut library, &t), 0);
    assert!(two_windows(&s) && two_strips(&s));
    assert_eq!(s.rv, floors(&s).0);
    assert_eq!(number(&mut library, &s), 0);
}

/// For every size of burst a plan meets both floors: it is accepted, and a burst on a sheet written under it is mended, in
/// either layout; every burst where there are few.
#[test]
fn met_for_every_size() {
    let mut harness = Harness::new(53);
    for (b1, b2) in burst_sizes() {
        let plan = at_floor(b1, b2);
        assert!(two_windows(&plan) && two_strips(&plan));
        assert_eq!((plan.rv, plan.rh), floors(&plan));
        assert_eq!(plan.checks.len(), 3 * b1 * b2);
        assert_eq!(plan_test(&mut harness.library, &plan.encode()), 0, "{plan:?}");
        let written = harness.written(plan);
        let plan = &written.plan;
        let bursts: Vec<_> = if b1 * b2 <= 6 {
            every_burst(plan).collect()
        } else {
            let whole =
                [(0, 0), (0, b2), (b1, 0), (b1, b2)].map(|(i, j)| burst(plan, i, j, u32::MAX));
            let random = (0..200).map(|_| random_burst(plan, &mut harness.rng));
            whole.into_iter().chain(random).collect()
        };
        for cells in bursts {
            harness.mends(&written, &cells);
            harness.mends_in(Layout::Columns, &written, &cells);
        }
    }
}

/// With one digit fewer for V every table is turned back with 8, and with one fewer for H, V being good, with 9: each table
/// where there are few, and random ones.
#[test]
fn one_digit_fewer() {
    let (mut library, mut rng) = (Library::new(54), Rng::new(54));
    let (mut rows, mut columns) = (0, 0);
    for (b1, b2) in burst_sizes() {
        let plan = at_floor(b1, b2);
        let (v_len, h_len) = (plan.v.len(), plan.h.len());
        let fewer = Plan { rv: plan.rv - 1, ..plan.clone() };
        for v in tables(v_len, fewer.rv, &mut rng) {
            let other = Plan { v, ..fewer.clone() }.with_first_cells();
            assert_eq!(number(&mut library, &other), 8, "{other:?}");
            rows += 1;
        }
        // without any digit it is check 4's
        let fewer = Plan { rh: plan.rh - 1, ..plan };
        for h in tables(h_len, fewer.rh, &mut rng) {
            let other = Plan { h, ..fewer.clone() }.with_first_cells();
            let expected = if fewer.rh == 0 { 4 } else { 9 };
            assert_eq!(number(&mut library, &other), expected, "{other:?}");
            columns += u64::from(expected == 9);
        }
    }
    println!("one digit fewer: {rows} tables of rows and {columns} of columns, none accepted");
    assert!(rows >= 8_000 && columns >= 8_000);
}

/// All tables of so many entries of this width, if they are at most 4,096; else 300 random ones.
fn tables(entries: usize, width: usize, rng: &mut Rng) -> Vec<Vec<u32>> {
    if entries * width > 12 {
        return (0..300).map(|_| (0..entries).map(|_| rng.bits(width)).collect()).collect();
    }
    let digits = |number: u32, k: usize| number >> (k * width) & ((1 << width) - 1);
    let table = |number: u32| (0..entries).map(|k| digits(number, k)).collect();
    (0..1 << (entries * width)).map(table).collect()
}

/// Where two windows, or two strips, must share rows or columns, a plan with fewer digits is accepted.
#[test]
fn smaller_sheets_have_none() {
    let mut library = Library::new(55);
    let few_rows = plan_two_rows();
    assert!(!two_windows(&few_rows) && few_rows.rv < floors(&few_rows).0);
    assert_eq!(number(&mut library, &few_rows), 0);

    let (v, h) = (vec![1, 2, 4, 8], vec![0, 0, 1]);
    let shape = Plan { n1: 2, n2: 3, b1: 1, b2: 2, t: 0, rv: 4, rh: 1, v, h, checks: Vec::new() };
    let few_columns =
        shape.with_checks(CellOrder::Sheet, &mut Rng::new(55)).expect("there are enough cells");
    assert!(!two_strips(&few_columns) && few_columns.rh < floors(&few_columns).1);
    assert_eq!(number(&mut library, &few_columns), 0);
}

/// The floors are for bursts of any cells alone: for such of at most one cell or two, plans below them are
/// accepted, for each size of burst that is large enough.
#[test]
fn few_cells_have_none() {
    let (mut library, mut rng) = (Library::new(56), Rng::new(56));
    for t in [1, 2] {
        for (b1, b2) in burst_sizes().filter(|(b1, b2)| b1 * b2 >= 8) {
            let below = (0..20).find_map(|_| tight(&mut rng, [2 * b1, 2 * b2, b1, b2], t));
            let plan = below.expect("there are check cells");
            assert!(two_windows(&plan) && two_strips(&plan));
            let (rv, rh) = floors(&plan);
            assert!(plan.rv < rv && plan.rh < rh, "{plan:?}");
            assert_eq!(number(&mut library, &plan), 0);
            assert_eq!(number(&mut library, &Plan { t: 0, ..plan }), 8);
        }
    }
}

//! The tables of docs/PLANS.md, read out of the page: each row is made by the call, byte for byte as by
//! the model, and serves; and no smaller polynomial would do, where that is quickly tried. One is for bursts
//! of any cells, and one for such as have at most one cell, or two.

use sheet_tests::compared::{told, Harness};
use sheet_tests::given::{Given, HOUSE};
use sheet_tests::make::{burst_sizes, powers, Polynomial, H_4X4};
use sheet_tests::model::{independent, strip_members, window_entries, Layout};
use sheet_tests::plan::Plan;
use sheet_tests::scans::{burst, full_burst};
use sheet_tests::sparse::polynomials_4x4;
use sheet_tests::yardstick::{sparse_first_strips, sparse_first_windows};

const PAGE: &str = include_str!("../../docs/PLANS.md");
const PROMISE: &str = include_str!("../../docs/PROMISE.md");
const HOST: &str = include_str!("../../examples/host.c");

#[derive(Debug)]
struct Row {
    given: Given,
    check_cells: usize,
    /// Of rv, of rh and of the check cells.
    floors: [u32; 3],
}

impl Row {
    /// `| b1 × b2 | n1 × n2 | rv | floor | V | rh | floor | H | check cells | floor |`; none for other lines.
    fn parse(line: &str) -> Option<Row> {
        let cells: Vec<&str> = line.strip_prefix('|')?.split('|').map(str::trim).collect();
        let &[size, sheet, rv, rv_floor, v, rh, rh_floor, h, check_cells, floor, ""] = &cells[..]
        else {
            return None;
        };
        let given = given([size, sheet], [rv, v, rh, h])?;
        let [rv_floor, rh_floor, floor] = [rv_floor, rh_floor, floor].map(|cell| cell.parse().ok());
        let floors = [rv_floor?, rh_floor?, floor?];
        Some(Row { given, check_cells: check_cells.parse().ok()?, floors })
    }

    fn burst(&self) -> (u32, u32) {
        (self.given.b1, self.given.b2)
    }
}

/// A row of the table for bursts of few cells.
#[derive(Debug)]
struct SparseRow {
    given: Given,
    check_cells: usize,
    /// The check cells for bursts of any cells, if there is a plan of the same size.
    with_any: Option<usize>,
}

impl SparseRow {
    /// `| b1 × b2 | t | n1 × n2 | rv | V | rh | H | check cells | with t = 0 |`; none for other lines.
    fn parse(line: &str) -> Option<SparseRow> {
        let cells: Vec<&str> = line.strip_prefix('|')?.split('|').map(str::trim).collect();
        let &[size, t, sheet, rv, v, rh, h, check_cells, with_any, ""] = &cells[..] else {
            return None;
        };
        let given = Given { t: t.parse().ok()?, ..given([size, sheet], [rv, v, rh, h])? };
        let with_any = if with_any == "none" { None } else { Some(with_any.parse().ok()?) };
        Some(SparseRow { given, check_cells: check_cells.parse().ok()?, with_any })
    }
}

/// Sizes of burst and sheet, and the degrees of two polynomials, each with what is below it.
fn given([size, sheet]: [&str; 2], [rv, v, rh, h]: [&str; 4]) -> Option<Given> {
    let ((b1, b2), (n1, n2)) = (pair(size)?, pair(sheet)?);
    let polynomial = |degree: &str, low: &str| {
        let low = u32::from_str_radix(low.strip_prefix("0x")?, 16).ok()?;
        Some(Polynomial { degree: degree.parse().ok()?, low })
    };
    Some(Given::new([n1, n2, b1, b2], polynomial(rv, v)?, polynomial(rh, h)?))
}

fn pair(cell: &str) -> Option<(u32, u32)> {
    let (left, right) = cell.split_once(" × ")?;
    Some((left.parse().ok()?, right.parse().ok()?))
}

/// The rows of the page. A line that is not understood is left out: `every_burst_size` notices.
fn rows() -> Vec<Row> {
    PAGE.lines().filter_map(Row::parse).collect()
}

/// The rows for bursts of few cells. A line that is not understood is left out: `every_size_of_few_cells`
/// notices.
fn sparse_rows() -> Vec<SparseRow> {
    PAGE.lines().filter_map(SparseRow::parse).collect()
}

fn row(b1: u32, b2: u32) -> Row {
    rows().into_iter().find(|row| row.burst() == (b1, b2)).expect("the page has the row")
}

/// The sheet is the largest that a plan can have, but for 4 × 4 bursts.
#[test]
fn every_burst_size() {
    let rows = rows();
    let bursts: Vec<_> = rows.iter().map(Row::burst).collect();
    assert_eq!(bursts, burst_sizes().map(|(b1, b2)| (b1 as u32, b2 as u32)).collect::<Vec<_>>());
    for Row { given, .. } in rows {
        let largest = (given.n1, given.n2) == (512, 698);
        assert_eq!(largest, (given.b1, given.b2) != (4, 4), "{given:?}");
    }
}

/// One row for t of 1 and one for t of 2, of every size of burst, at full size. Where any burst has at most
/// t cells, it is the row of the first table; the check cells beside are that table's, if it has full size
/// there.
#[test]
fn every_size_of_few_cells() {
    let rows = sparse_rows();
    let of_size = |(b1, b2)| [1, 2].map(|t| [b1 as u32, b2 as u32, t]);
    let sizes: Vec<_> = rows.iter().map(|row| [row.given.b1, row.given.b2, row.given.t]).collect();
    assert_eq!(sizes, burst_sizes().flat_map(of_size).collect::<Vec<_>>());
    for SparseRow { given, check_cells, with_any } in rows {
        let any = row(given.b1, given.b2);
        assert_eq!((given.n1, given.n2), (512, 698), "{given:?}");
        assert_eq!(check_cells, (given.rv + given.rh) as usize, "{given:?}");
        let is_full = any.given.n1 == 512;
        assert_eq!(with_any, is_full.then_some(any.check_cells), "{given:?}");
        if given.t >= given.b1 * given.b2 {
            assert_eq!(Given { t: 0, ..given }, any.given);
        }
        assert!(with_any.is_none_or(|with_any| check_cells <= with_any), "{given:?}");
    }
}

/// The floors are request l's: 2 × b1 × b2 for V and b1 × b2 for H.
#[test]
fn check_cells_and_floors() {
    for Row { given, check_cells, floors } in rows() {
        let Given { n1, n2, b1, b2, rv, rh, .. } = given;
        assert!(n1 >= 2 * b1 && n2 >= 2 * b2, "{given:?}");
        assert_eq!(check_cells, (rv + rh) as usize, "{given:?}");
        assert_eq!(floors, [2 * b1 * b2, b1 * b2, 3 * b1 * b2], "{given:?}");
        assert!(rv >= floors[0] && rh >= floors[1], "{given:?}");
    }
}

/// What both pages say of the house plan.
#[test]
fn house_plan_and_floors() {
    let Row { given, check_cells, floors: [rv, rh, both] } = row(3, 3);
    let said = format!(
        "rv is {} against {rv}, rh {} against {rh}, and the check cells are {check_cells} against {both}",
        given.rv, given.rh
    );
    for page in [PAGE, PROMISE] {
        let words: Vec<_> = page.split_whitespace().collect();
        assert!(words.join(" ").contains(&said), "{said}");
    }
}

/// `make_in_its_length` compares the plan's bytes with the model's, has the library accept it, write
/// under it and mend a burst. Here every cell of a burst of full size is turned over, in each corner
/// of the sheet and amid it.
#[test]
fn each_row_is_made_and_serves() {
    let mut harness = Harness::new(41);
    for Row { given, check_cells, .. } in rows() {
        let plan = harness.make_in_its_length(&given);
        let plan = plan.unwrap_or_else(|refusal| panic!("{given:?}: {refusal:?}"));
        assert_eq!(plan.checks.len(), check_cells, "{given:?}");
        let (bottom, right) = (plan.n1 - plan.b1, plan.n2 - plan.b2);
        let amid = (harness.rng.within(1, bottom - 1), harness.rng.within(1, right - 1));
        let written = harness.written(plan);
        for (top, left) in [(0, 0), (0, right), (bottom, 0), (bottom, right), amid] {
            let whole = burst(&written.plan, top, left, u32::MAX);
            assert_eq!(whole.len(), written.plan.b1 * written.plan.b2);
            harness.mends(&written, &whole);
        }
    }
}

/// The same for bursts of few cells: in each rectangle at the corners of the sheet and in one amid it, as
/// many cells as a burst may have.
#[test]
fn each_row_of_few_cells_is_made_and_serves() {
    let mut harness = Harness::new(43);
    for SparseRow { given, check_cells, .. } in sparse_rows() {
        let plan = harness.make_in_its_length(&given);
        let plan = plan.unwrap_or_else(|refusal| panic!("{given:?}: {refusal:?}"));
        assert_eq!((plan.checks.len(), plan.t), (check_cells, given.t as usize), "{given:?}");
        let written = harness.written_accepted(plan);
        let plan = &written.plan;
        let (bottom, right) = (plan.n1 - plan.b1, plan.n2 - plan.b2);
        let amid = (harness.rng.within(1, bottom - 1), harness.rng.within(1, right - 1));
        for (top, left) in [(0, 0), (0, right), (bottom, 0), (bottom, right), amid] {
            let cells = full_burst(plan, top, left);
            assert_eq!(cells.len(), plan.most_cells());
            harness.mends(&written, &cells);
            harness.mends_in(Layout::Columns, &written, &cells);
        }
    }
}

/// The polynomials that other tests and the example host name are the page's.
#[test]
fn house_plan() {
    assert_eq!(row(3, 3).given, HOUSE);
    let Given { rv, v_low, rh, h_low, .. } = row(3, 3).given;
    let in_c = format!("RV = {rv}, V_LOW = {v_low:#x}, RH = {rh}, H_LOW = {h_low:#x}");
    assert!(HOST.contains(&in_c), "{in_c}");
    let Given { rh, h_low, .. } = row(4, 4).given;
    assert_eq!((rh as usize, h_low), (H_4X4.degree, H_4X4.low));
    for SparseRow { given, .. } in
        sparse_rows().iter().filter(|row| row.given.b1 * row.given.b2 == 16)
    {
        let named = polynomials_4x4(given.t as usize).map(|of| (of.degree as u32, of.low));
        assert_eq!(given.polynomials(), named);
    }
}

/// With one row more the V of 4 × 4 bursts fails, as the page says.
#[test]
fn most_rows_for_4x4() {
    let Given { n1, .. } = row(4, 4).given;
    let more = Given { n1: n1 + 1, ..row(4, 4).given };
    let answer = told(&Harness::new(42).make_in_its_length(&more));
    assert_eq!(answer & 31, 8, "{more:?}");
}

/// Some pair of windows with the first one is dependent on a sheet of so many rows.
fn v_fails(given: &Given, rows: usize, v: Polynomial) -> bool {
    let entries = powers(rows * given.b2 as usize, v);
    let plan = Plan { n1: rows, v: entries, ..given.sizes() };
    (0..=rows - plan.b1).any(|second| !independent(window_entries(&plan, 0, second)))
}

/// Some pair of strips with the first one is dependent on a sheet of so many columns.
fn h_fails(given: &Given, columns: usize, h: Polynomial) -> bool {
    let entries = powers(columns * given.b1 as usize, h);
    let plan = Plan { n2: columns, h: entries, ..given.sizes() };
    (1..=columns - plan.b2).any(|second| !independent(strip_members(&plan, 0, second)))
}

/// The polynomials with constant term 1 that come before this one, by degree and then by `low`.
fn before(this: Polynomial) -> impl Iterator<Item = Polynomial> {
    (1..=this.degree).flat_map(move |degree| {
        let end = if degree == this.degree { this.low } else { 1 << degree };
        (1..end).step_by(2).map(move |low| Polynomial { degree, low })
    })
}

/// Each polynomial before this one fails: on a few rows or columns, as most do, or on all. How many
/// there are; none if they are too many to be tried here.
fn all_before_fail(
    this: Polynomial,
    all: u32,
    fails: impl Fn(usize, Polynomial) -> bool,
) -> Option<usize> {
    if this.degree > 17 {
        return None;
    }
    let mut tried = 0;
    for other in before(this) {
        let failed = fails(24, other) || fails(all as usize, other);
        assert!(failed, "{other:?} serves, and comes before {this:?}");
        tried += 1;
    }
    Some(tried)
}

/// The polynomials of a row are the first that serve on its sheet, by degree from 1 on and then by
/// `low`. Those of degrees above 17 are left to `make find`.
#[test]
fn first_of_the_least_degree() {
    let mut tried = Vec::new();
    for Row { given, .. } in rows() {
        let [v, h] =
            given.polynomials().map(|(degree, low)| Polynomial { degree: degree as usize, low });
        tried.extend(all_before_fail(v, given.n1, |rows, v| v_fails(&given, rows, v)));
        tried.extend(all_before_fail(h, given.n2, |columns, h| h_fails(&given, columns, h)));
    }
    let (tables, tried) = (tried.len(), tried.iter().sum::<usize>());
    println!("{tried} polynomials fail that come before those of {tables} tables");
    assert!(tables > 20, "{tables}");
}

/// The same for bursts of few cells, where all degrees are low; by the Rust that the library is timed
/// against, which is tested beside the model.
#[test]
fn first_of_the_least_degree_for_few_cells() {
    let mut tried = Vec::new();
    for SparseRow { given, .. } in sparse_rows() {
        let [v, h] =
            given.polynomials().map(|(degree, low)| Polynomial { degree: degree as usize, low });
        let v_fails = |n1: usize, v: Polynomial| {
            let entries = powers(n1 * given.b2 as usize, v);
            sparse_first_windows(&Plan { n1, v: entries, ..given.sizes() }).is_some()
        };
        let h_fails = |n2: usize, h: Polynomial| {
            let entries = powers(n2 * given.b1 as usize, h);
            sparse_first_strips(&Plan { n2, h: entries, ..given.sizes() }).is_some()
        };
        tried.extend(all_before_fail(v, given.n1, v_fails));
        tried.extend(all_before_fail(h, given.n2, h_fails));
        assert!(!v_fails(512, v) && !h_fails(698, h), "{given:?}");
    }
    println!(
        "{} polynomials fail that come before those of few cells",
        tried.iter().sum::<usize>()
    );
    assert_eq!(tried.len(), 64);
}

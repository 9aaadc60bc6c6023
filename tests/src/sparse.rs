//! Plans for bursts of at most one cell or two (request m of document 02): worked out by hand, at full
//! size, and such as are accepted for bursts of few cells but not for denser ones.

use std::collections::BTreeSet;

use crate::answer::Answer;
use crate::cases::{plan_s, plan_t, PlanCase};
use crate::make::{powers, CellOrder, Polynomial, WIDE};
use crate::model;
use crate::plan::Plan;
use crate::rng::Rng;

/// Tables of powers for bursts of at most two cells of 4 × 4, on 512 rows and 698 columns: of all
/// polynomials with constant term 1 none of smaller degree serves, and none of this degree with a smaller
/// `low`.
pub const V_TWO_OF_4X4: Polynomial = Polynomial { degree: 16, low: 0x1cd9 };
pub const H_TWO_OF_4X4: Polynomial = Polynomial { degree: 10, low: 0x123 };

/// The same for bursts of at most one cell.
pub const V_ONE_OF_4X4: Polynomial = Polynomial { degree: 12, low: 0x3 };
pub const H_ONE_OF_4X4: Polynomial = Polynomial { degree: 8, low: 0x9 };

/// Two that do not serve for bursts of at most two cells: the first window fails with the one at row 485,
/// and the first strip with the one at column 689.
pub const V_FAR: Polynomial = Polynomial { degree: 16, low: 0x51d };
pub const H_FAR: Polynomial = Polynomial { degree: 11, low: 0x119 };

/// The two polynomials for bursts of at most t cells of 4 × 4, t being 1 or 2.
pub fn polynomials_4x4(t: usize) -> [Polynomial; 2] {
    match t {
        1 => [V_ONE_OF_4X4, H_ONE_OF_4X4],
        2 => [V_TWO_OF_4X4, H_TWO_OF_4X4],
        _ => panic!("no polynomials for bursts of {t} cells"),
    }
}

/// The accepted plan with tables of powers for bursts of at most t cells of 4 × 4, on n1 rows, at most 512,
/// and n2 columns, at most 698.
pub fn few_of_4x4(sizes: [usize; 2], t: usize, order: CellOrder, rng: &mut Rng) -> Plan {
    of_4x4(sizes, t, polynomials_4x4(t), |table| table, order, rng)
}

/// The same with the entries of each row, and of each column, in reversed order: no entry is z times the one
/// before.
pub fn reversed_4x4(sizes: [usize; 2], t: usize, order: CellOrder, rng: &mut Rng) -> Plan {
    of_4x4(sizes, t, polynomials_4x4(t), reversed, order, rng)
}

/// The accepted plan of full size with the widest entries, in reversed order too. One altered entry makes few
/// sums alike here.
pub fn wide_4x4(t: usize, order: CellOrder, rng: &mut Rng) -> Plan {
    of_4x4([512, 698], t, [WIDE, WIDE], reversed, order, rng)
}

/// The four entries of each row, or of each column, in reversed order.
fn reversed(table: Vec<u32>) -> Vec<u32> {
    table.chunks(4).flat_map(|of| of.iter().rev()).copied().collect()
}

fn of_4x4(
    [n1, n2]: [usize; 2],
    t: usize,
    [v, h]: [Polynomial; 2],
    of_powers: fn(Vec<u32>) -> Vec<u32>,
    order: CellOrder,
    rng: &mut Rng,
) -> Plan {
    let (rv, rh) = (v.degree, h.degree);
    let (v, h) = (of_powers(powers(4 * n1, v)), of_powers(powers(4 * n2, h)));
    let plan = Plan { n1, n2, b1: 4, b2: 4, t, rv, rh, v, h, checks: Vec::new() };
    plan.with_checks(order, rng).expect("there are enough cells")
}

/// A random accepted plan for bursts of at most t cells of b1 × b2, t being 1 or 2, on n1 rows and n2
/// columns, with about as few digits as tables have that are filled entry by entry. None if there are too
/// few check cells.
pub fn tight(rng: &mut Rng, [n1, n2, b1, b2]: [usize; 4], t: usize) -> Option<Plan> {
    let (rv, v) = (1..=32).find_map(|rv| Some((rv, tight_rows(rng, [n1, b1, b2, t], rv)?)))?;
    let shape = Plan { n1, n2, b1, b2, t, rv, rh: 1, v, h: Vec::new(), checks: Vec::new() };
    let (rh, h) = (1..=32).find_map(|rh| Some((rh, tight_columns(rng, &shape, rh)?)))?;
    let order = rng.pick(&[CellOrder::Sheet, CellOrder::Scattered]);
    let plan = Plan { rh, h, ..shape }.with_checks(order, rng)?;
    assert_eq!(model::test_plan(&plan.encode()), Answer::default(), "{plan:?}");
    Some(plan)
}

/// A row table of this width, each entry the first of a random order that makes no sum anew: all sets of at
/// most t positions that lie in a window have different sums. None if some entry finds no place.
fn tight_rows(rng: &mut Rng, [n1, b1, b2, t]: [usize; 4], width: usize) -> Option<Vec<u32>> {
    let (mut table, mut met) = (Vec::new(), BTreeSet::from([0]));
    for at in 0..n1 * b2 {
        let first = (at / b2 + 1).saturating_sub(b1) * b2;
        let with = |entry: u32, table: &[u32]| -> Vec<u32> {
            let two = table[first..].iter().filter(|_| t == 2).map(|other| entry ^ other);
            two.chain([entry]).collect()
        };
        let sums = |entry: &u32| with(*entry, &table).iter().all(|sum| !met.contains(sum));
        let entry = candidates(rng, width).find(sums)?;
        met.extend(with(entry, &table));
        table.push(entry);
    }
    Some(table)
}

/// A column table of this width, each column the first of some random ones that fails with no column before
/// it.
fn tight_columns(rng: &mut Rng, shape: &Plan, width: usize) -> Option<Vec<u32>> {
    let mut table: Vec<u32> = Vec::new();
    for n2 in 1..=shape.n2 {
        let column = (0..200).find_map(|_| {
            let column = (0..shape.b1).map(|_| rng.bits(width));
            let h: Vec<_> = table.iter().copied().chain(column).collect();
            let fails =
                n2 > shape.b2 && last_strips_fail(&Plan { n2, h: h.clone(), ..shape.clone() });
            (!fails).then_some(h)
        });
        table = column?;
    }
    Some(table)
}

/// Does the last strip, with some before it, have a set of at most t members that comes to 0?
fn last_strips_fail(plan: &Plan) -> bool {
    let last = plan.n2 - plan.b2;
    (0..last).any(|first| {
        let mut members: Vec<_> = model::strip_members(plan, first, last).collect();
        members.sort_unstable();
        members[0] == 0 || plan.t == 2 && members.windows(2).any(|two| two[0] == two[1])
    })
}

/// Entries of this width in a random order: all, or some of very many.
fn candidates(rng: &mut Rng, width: usize) -> impl Iterator<Item = u32> {
    let (from, step) = (rng.bits(width), rng.bits(width) | 1);
    let mask = ((1u64 << width) - 1) as u32;
    let count = 1u32 << width.min(12);
    (0..count).map(move |k| from.wrapping_add(k.wrapping_mul(step)) & mask)
}

/// The widest plan so altered that the pair of windows, or of strips, that is the first to fail comes as
/// late as can be; with what is told. The last V entry becomes that of row 507; and with one cell two
/// entries of the last row are alike, which fail in the last window alone. The last H entry becomes that of
/// column 693.
pub fn late_refusals(t: usize, rng: &mut Rng) -> Vec<(Plan, Answer)> {
    let plan = wide_4x4(t, CellOrder::Sheet, rng);
    let [mut rows, mut row, mut columns] = [(); 3].map(|()| plan.clone());
    rows.v[4 * 512 - 1] = plan.v[4 * 507];
    row.v[4 * 512 - 1] = plan.v[4 * 512 - 2];
    columns.h[4 * 698 - 1] = plan.h[4 * 693 + 3];
    let of_row = if t == 1 { (508, 508) } else { (0, 508) };
    vec![
        (rows, Answer::refusal(8, 504, 508)),
        (row, Answer::refusal(8, of_row.0, of_row.1)),
        (columns, Answer::refusal(9, 690, 694)),
    ]
}

/// Plans of full size for bursts of at most two cells with tables of powers that fail far apart, and what
/// is told.
pub fn far_refusals() -> Vec<(Plan, Answer)> {
    let refused = |v: Polynomial, h: Polynomial, told| {
        let (n1, n2, rv, rh) = (512, 698, v.degree, h.degree);
        let (v, h) = (powers(4 * n1, v), powers(4 * n2, h));
        let plan = Plan { n1, n2, b1: 4, b2: 4, t: 2, rv, rh, v, h, checks: Vec::new() };
        (plan.with_first_cells(), told)
    };
    vec![
        refused(V_FAR, H_TWO_OF_4X4, Answer::refusal(8, 0, 485)),
        refused(V_TWO_OF_4X4, H_FAR, Answer::refusal(9, 0, 689)),
    ]
}

/// The plan for bursts of at most so many cells.
pub fn with_t(plan: &Plan, t: usize) -> Plan {
    Plan { t, ..plan.clone() }
}

/// Bursts of one row and b2 columns, with these tables and widths; check cells if they can be taken.
fn one_row(b2: usize, (rv, v): (usize, &[u32]), (rh, h): (usize, &[u32])) -> Plan {
    let (v, h) = (v.to_vec(), h.to_vec());
    let (n1, n2) = (v.len() / b2, h.len());
    let plan = Plan { n1, n2, b1: 1, b2, t: 0, rv, rh, v, h, checks: Vec::new() };
    plan.with_any_checks(CellOrder::Sheet, &mut Rng::new(1))
}

/// Number and places.
type Told = (u64, u64, u64);

/// The answers for t of 0, 1 and 2 to one plan, worked out by hand.
type WorkedPlan = (Plan, [Told; 3]);

fn worked_plans() -> Vec<WorkedPlan> {
    const OK: Told = (0, 0, 0);
    let s_v = |v: [u32; 3]| Plan { v: v.to_vec(), ..plan_s() };
    let s_h = |h: [u32; 3]| Plan { h: h.to_vec(), ..plan_s() };
    vec![
        // Bursts of one cell have at most one cell, whatever t is; so have cases 8 and 9 of 01.
        (plan_s(), [OK; 3]),
        (s_v([1, 2, 2]), [(8, 1, 2); 3]),
        (s_v([0, 1, 2]), [(8, 0, 0); 3]),
        (s_h([0, 1, 1]), [(9, 1, 2); 3]),
        (plan_t(), [OK; 3]),
        // Two windows of one row each. Both entries of row 1 are 4: two sets in one window. With two cells
        // they come to 0, as the empty set of row 0 does.
        (one_row(2, (3, &[2, 3, 4, 4]), (2, &[2, 3, 1, 2])), [(8, 0, 1), (8, 1, 1), (8, 0, 1)]),
        // The same in row 2 of three.
        (
            one_row(2, (5, &[1, 2, 4, 8, 16, 16]), (2, &[2, 3, 1, 2])),
            [(8, 0, 2), (8, 2, 2), (8, 0, 2)],
        ),
        (
            one_row(4, (11, &[&digits(11)[..], &[512]].concat()), (4, &of_digits(4))),
            [(8, 0, 2), (8, 2, 2), (8, 0, 2)],
        ),
        // An entry 0 has the sum of the empty set, which stands in every window.
        (one_row(2, (4, &[1, 2, 4, 0]), (2, &[0, 0, 1, 2])), [(8, 0, 1); 3]),
        (one_row(2, (4, &[0, 2, 4, 8]), (2, &[0, 0, 1, 2])), [(8, 0, 0); 3]),
        // An entry of row 1 is one of row 0.
        (one_row(2, (4, &[1, 2, 4, 1]), (2, &[0, 0, 1, 2])), [(8, 0, 1); 3]),
        // 1 and 2 come to 3: two sets of one window, if they may have two positions.
        (one_row(3, (5, &[1, 2, 3, 4, 8, 16]), (3, &of_digits(3))), [(8, 0, 0), OK, (8, 0, 0)]),
        // 1 and 2 come to 8 and 11, in two windows.
        (one_row(3, (5, &[1, 2, 4, 8, 11, 16]), (3, &of_digits(3))), [(8, 0, 1), OK, (8, 0, 1)]),
        // 1, 2 and 4 come to 7: of three positions and one.
        (one_row(3, (5, &[1, 2, 4, 7, 8, 16]), (3, &of_digits(3))), [(8, 0, 1), OK, OK]),
        // Of strips 0 and 2 both members are 1.
        (one_row(2, (4, &[1, 2, 4, 8]), (1, &[0, 0, 1, 1])), [(9, 0, 2), OK, (9, 0, 2)]),
        // Of strips 0 and 3 the members are 1, 2 and 3: three come to 0.
        (one_row(3, (6, &digits(6)), (2, &[0, 0, 0, 1, 2, 3])), [(9, 0, 3), OK, OK]),
        // 1, 2, 4 and 7: four come to 0, twice as many as a burst has cells.
        (one_row(4, (8, &digits(8)), (3, &[0, 0, 0, 0, 1, 2, 4, 7])), [(9, 0, 4), OK, OK]),
        // A member is 0: columns 1 and 3 have the same entry.
        (one_row(2, (4, &[1, 2, 4, 8]), (2, &[0, 1, 2, 1])), [(9, 0, 2); 3]),
    ]
}

/// Entries that have a digit of their own each.
fn digits(count: usize) -> Vec<u32> {
    (0..count).map(|k| 1 << k).collect()
}

/// So many columns of entry 0, and as many with a digit of their own each.
fn of_digits(columns: usize) -> Vec<u32> {
    [vec![0; columns], digits(columns)].concat()
}

/// Plans with t of 0, 1, 2 and beyond, and what the plan test tells of each, worked out by hand.
pub fn sparse_cases() -> Vec<PlanCase> {
    let mut cases = Vec::new();
    for (plan, told) in worked_plans() {
        cases.extend((0..3).map(|t| (with_t(&plan, t).encode(), told[t])));
        cases.extend([3, 4, 255, 256, 65_535].map(|t| (with_t(&plan, t).encode(), (23, 0, 0))));
    }
    cases
}

//! Data, sheets and bursts under an accepted plan.

use crate::model::{self, Cell};
use crate::plan::Plan;
use crate::rng::Rng;

/// Random data of the right form.
pub fn random_data(plan: &Plan, rng: &mut Rng) -> Vec<u8> {
    let mut data = rng.bytes(plan.data_len());
    if let Some(last) = data.last_mut() {
        *last >>= 8 * plan.data_len() - plan.data_bits();
    }
    data
}

/// A random sheet of the right form.
pub fn random_sheet(plan: &Plan, rng: &mut Rng) -> Vec<u8> {
    let mut sheet = rng.bytes(plan.sheet_len());
    for row in sheet.chunks_mut(plan.row_len()) {
        row[plan.row_len() - 1] &= !model::unused_bits(plan);
    }
    sheet
}

/// Every sheet of the right form under a plan that has few cells, at most 8 of them a row.
pub fn every_sheet(plan: &Plan) -> impl Iterator<Item = Vec<u8>> + '_ {
    (0..1u32 << (plan.n1 * plan.n2)).map(|pattern| {
        let row = |i| (pattern >> (i * plan.n2)) as u8 & !model::unused_bits(plan);
        (0..plan.n1).map(row).collect()
    })
}

/// The sheet with every cell dark.
pub fn dark_sheet(plan: &Plan) -> Vec<u8> {
    let mut row = vec![0xff; plan.row_len()];
    row[plan.row_len() - 1] &= !model::unused_bits(plan);
    row.repeat(plan.n1)
}

/// The cells of a random burst, in sheet order. It may be empty.
pub fn random_burst(plan: &Plan, rng: &mut Rng) -> Vec<Cell> {
    let (top, left) = (rng.below(plan.n1 - plan.b1 + 1), rng.below(plan.n2 - plan.b2 + 1));
    burst(plan, top, left, random_pattern(plan, rng))
}

/// The pattern of a random burst: any bits; but where a burst has few cells, as many as it has, or now and
/// then none.
pub fn random_pattern(plan: &Plan, rng: &mut Rng) -> u32 {
    if plan.t == 0 {
        return rng.bits(plan.b1 * plan.b2);
    }
    let cells = if rng.one_in(6) { 0 } else { plan.most_cells() };
    (0..cells).fold(0, |pattern, _| pattern | 1 << rng.below(plan.b1 * plan.b2))
}

/// A burst of as many cells as it may have in the rectangle at (top, left): all of them, the first and the
/// last, or the last alone.
pub fn full_burst(plan: &Plan, top: usize, left: usize) -> Vec<Cell> {
    let last = 1 << (plan.b1 * plan.b2 - 1);
    let pattern = match plan.most_cells() {
        _ if plan.t == 0 => u32::MAX,
        1 => last,
        _ => 1 | last,
    };
    burst(plan, top, left, pattern)
}

/// Every set of cells of one rectangle that has just one cell more than a burst may have, as far as the
/// rectangle has so many. Where a burst may have any cells, there is none.
pub fn every_denser_burst(plan: &Plan) -> impl Iterator<Item = Vec<Cell>> + '_ {
    every_pattern(plan, |cells| plan.t != 0 && cells == plan.t + 1)
}

/// Those of the rectangle at (top, left).
pub fn denser_bursts_at(plan: &Plan, top: usize, left: usize) -> Vec<Vec<Cell>> {
    let one_more = |pattern: &u32| plan.t != 0 && pattern.count_ones() as usize == plan.t + 1;
    let patterns = (0..1 << (plan.b1 * plan.b2)).filter(one_more);
    patterns.map(|pattern| burst(plan, top, left, pattern)).collect()
}

/// The cells of a pattern in the rectangle at (top, left), in sheet order: bit r × b2 + s of the
/// pattern is the cell r rows and s columns from its corner.
pub fn burst(plan: &Plan, top: usize, left: usize, pattern: u32) -> Vec<Cell> {
    let inside = (0..plan.b1 * plan.b2).filter(|at| pattern >> at & 1 == 1);
    inside.map(|at| (top + at / plan.b2, left + at % plan.b2)).collect()
}

/// Every pattern of a burst in every rectangle of its size, as its cells. Some have the same cells.
pub fn every_burst(plan: &Plan) -> impl Iterator<Item = Vec<Cell>> + '_ {
    every_pattern(plan, |cells| cells <= plan.most_cells())
}

/// Every pattern with such a number of cells in every rectangle of a burst's size.
fn every_pattern<'a>(
    plan: &'a Plan,
    has: impl Fn(usize) -> bool + 'a,
) -> impl Iterator<Item = Vec<Cell>> + 'a {
    let patterns =
        (0..1u32 << (plan.b1 * plan.b2)).filter(move |pattern| has(pattern.count_ones() as usize));
    let patterns: Vec<_> = patterns.collect();
    let (bottom, right) = (plan.n1 - plan.b1, plan.n2 - plan.b2);
    let corners = (0..=bottom).flat_map(move |top| (0..=right).map(move |left| (top, left)));
    corners.flat_map(move |(top, left)| {
        patterns.clone().into_iter().map(move |pattern| burst(plan, top, left, pattern))
    })
}

/// The sheet with these cells turned over.
pub fn turned(plan: &Plan, sheet: &[u8], cells: &[Cell]) -> Vec<u8> {
    let mut sheet = sheet.to_vec();
    for &cell in cells {
        model::turn_over(plan, &mut sheet, cell);
    }
    sheet
}

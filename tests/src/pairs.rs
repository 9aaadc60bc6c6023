//! Pairs of scans: such as no burst mends, bursts on check cells alone, and rows that differ.

use std::ops::Range;

use crate::model::{self, Cell};
use crate::plan::Plan;
use crate::rng::Rng;
use crate::scans::{burst, full_burst, random_sheet};

/// A random sheet that no burst fits. None if twenty sheets can be mended: under some small plans all can.
pub fn hopeless(plan: &Plan, rng: &mut Rng) -> Option<Vec<u8>> {
    let mut sheets = (0..20).map(|_| random_sheet(plan, rng));
    sheets.find(|sheet| model::burst_by_search(plan, sheet).is_none())
}

/// A burst about a random check cell that turns over check cells alone, and that one among them.
pub fn check_burst(plan: &Plan, rng: &mut Rng) -> Vec<Cell> {
    let (i, j) = rng.pick(&plan.checks);
    let (i, j) = (usize::from(i), usize::from(j));
    let top = rng.within((i + 1).saturating_sub(plan.b1), i.min(plan.n1 - plan.b1));
    let left = rng.within((j + 1).saturating_sub(plan.b2), j.min(plan.n2 - plan.b2));
    let other = match plan.most_cells() {
        _ if plan.t == 0 => rng.bits(plan.b1 * plan.b2),
        cells => (1..cells).fold(0, |other, _| other | 1 << rng.below(plan.b1 * plan.b2)),
    };
    let pattern = other | 1 << ((i - top) * plan.b2 + (j - left));
    let is_check = |&(i, j): &Cell| plan.checks.binary_search(&(i as u16, j as u16)).is_ok();
    burst(plan, top, left, pattern).into_iter().filter(is_check).collect()
}

/// The full burst at each corner of the sheet, in the middle of each edge, and in the middle of all. (Where
/// a burst has few cells, one of as many as it may have.)
pub fn edge_bursts(plan: &Plan) -> Vec<Vec<Cell>> {
    let (bottom, right) = (plan.n1 - plan.b1, plan.n2 - plan.b2);
    let tops = [0, bottom / 2, bottom];
    let at = |top| [0, right / 2, right].map(|left| full_burst(plan, top, left));
    tops.into_iter().flat_map(at).collect()
}

/// The places of a row in a sheet.
pub fn row_places(plan: &Plan, row: usize) -> Range<usize> {
    row * plan.row_len()..(row + 1) * plan.row_len()
}

/// What sheet_first_difference tells of a row at these places: where it begins in the lower half, its length
/// in the upper. 0 if they are none.
pub fn difference_of(row: &Range<usize>) -> u64 {
    row.start as u64 | (row.len() as u64) << 32
}

//! Runs of rows, and sums of them.

use std::ops::Range;

use crate::model::{Cell, Sums};
use crate::plan::Plan;
use crate::rng::Rng;

/// What two runs come to that follow each other.
pub fn joined(left: Sums, right: Sums) -> Sums {
    (left.0 ^ right.0, left.1 ^ right.1)
}

/// The sums of these cells alone.
pub fn sums_of(plan: &Plan, cells: &[Cell]) -> Sums {
    let entries = cells.iter().map(|&(i, j)| (plan.v_entry(i, j), plan.h_entry(i, j)));
    entries.fold((0, 0), joined)
}

/// All rows of the sheet.
pub fn whole(plan: &Plan) -> Range<u32> {
    0..plan.n1 as u32
}

/// Ends of runs about the edges of the sheet, and about those of numbers of 8, 16, 31 and 32 bits.
pub fn edges(plan: &Plan) -> Vec<u32> {
    let n1 = plan.n1 as u32;
    let about_n1 = [0, 1, n1 - 1, n1, n1 + 1];
    let about_widths =
        [1 << 8, 1 << 16, (1 << 16) + n1.div_ceil(2), 1 << 31, u32::MAX - 1, u32::MAX];
    about_n1.into_iter().chain(about_widths).collect()
}

/// An end of a run: on the sheet or just past it, at an edge, or anywhere.
pub fn random_end(plan: &Plan, rng: &mut Rng) -> u32 {
    match rng.below(4) {
        0 => rng.pick(&edges(plan)),
        1 => rng.bits(32),
        _ => rng.below(plan.n1 + 3) as u32,
    }
}

/// A run between any two ends. It is often empty.
pub fn random_run(plan: &Plan, rng: &mut Rng) -> Range<u32> {
    random_end(plan, rng)..random_end(plan, rng)
}

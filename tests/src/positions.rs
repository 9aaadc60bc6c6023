//! Positions of data bits, and what an alteration may turn over.

use crate::model::{cell, cells, data_cells, Cell};
use crate::plan::Plan;
use crate::rng::Rng;

/// All positions that are taken: those below k.
pub fn every_position(plan: &Plan) -> Vec<u32> {
    (0..plan.data_bits() as u32).collect()
}

/// Positions of k or more: just beyond, a multiple of k, such as differ from a good one by a power of 2
/// that a number of fewer bits or one with a sign would lose, and the last numbers of all.
pub fn beyond(plan: &Plan) -> Vec<u32> {
    let k = plan.data_bits() as u32;
    let last = k.saturating_sub(1);
    let near = [k, k + 1, k.next_multiple_of(8), 2 * k, 2 * k + 1, plan.n1 as u32 * plan.n2 as u32];
    let lost = (8..32).flat_map(|bit| [1 << bit, (1 << bit) + last]);
    let all = near.into_iter().chain(lost).chain([u32::MAX - k, u32::MAX - 1, u32::MAX]);
    all.filter(|&position| position >= k).collect()
}

/// A position below k, if there is one; sometimes one beyond, or any number.
pub fn random_position(plan: &Plan, rng: &mut Rng) -> u32 {
    match rng.below(6) {
        0 => rng.pick(&beyond(plan)),
        1 => rng.bits(32),
        _ => rng.below(plan.data_bits().max(1)) as u32,
    }
}

/// The cell of a position.
pub fn cell_of(plan: &Plan, position: u32) -> Cell {
    data_cells(plan).nth(position as usize).expect("the position is below k")
}

/// The cells in which two sheets differ, other than check cells, in sheet order.
pub fn differing_data_cells(plan: &Plan, left: &[u8], right: &[u8]) -> Vec<Cell> {
    let differs = |&at: &Cell| cell(plan, left, at) != cell(plan, right, at);
    let is_check = |&(i, j): &Cell| plan.checks.binary_search(&(i as u16, j as u16)).is_ok();
    cells(plan).filter(differs).filter(|at| !is_check(at)).collect()
}

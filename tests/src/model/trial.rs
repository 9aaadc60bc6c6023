//! Reading by trial, by the words of request j of document 02: each rectangle in sheet order, each pattern
//! in it, until both sums are 0. Where t is not 0, a pattern has at most t cells (request m).

use super::buffers::check_reading;
use super::layout::Layout;
use super::run::run_sums;
use super::sheet::{turn_over, Cell};
use super::{accept, read_with};
use crate::answer::Answer;
use crate::plan::Plan;

/// The first pattern that brings both sums to 0. Each is turned over in a copy of the sheet, and both sums of that are
/// worked out afresh: nothing is taken from how they change. `burst_by_trial` knows that, and is faster.
pub fn burst_tried(plan: &Plan, sheet: &[u8]) -> Option<Vec<Cell>> {
    for top in 0..=plan.n1 - plan.b1 {
        for left in 0..=plan.n2 - plan.b2 {
            for pattern in 0..1u32 << (plan.b1 * plan.b2) {
                let cells = cells_of(plan, (top, left), pattern);
                if plan.t != 0 && cells.len() > plan.t {
                    continue;
                }
                let mut turned = sheet.to_vec();
                for &at in &cells {
                    turn_over(plan, &mut turned, at);
                }
                if run_sums(plan, &turned, 0..plan.n1 as u32) == (0, 0) {
                    return Some(cells);
                }
            }
        }
    }
    None
}

/// The cells of a pattern in the rectangle with this corner, which is its bit 0: bits go along its rows, row by row.
fn cells_of(plan: &Plan, (top, left): Cell, pattern: u32) -> Vec<Cell> {
    let mut cells = Vec::new();
    let mut rest = pattern;
    for i in top..top + plan.b1 {
        for j in left..left + plan.b2 {
            if rest % 2 == 1 {
                cells.push((i, j));
            }
            rest /= 2;
        }
    }
    cells
}

/// Read a sheet by trial: mend it and take its data out. A refusal changes nothing.
pub fn read_by_trial(plan: &[u8], sheet: &mut [u8], data: &mut [u8]) -> Answer {
    match accept(plan) {
        Ok(plan) => read_by_trial_accepted(&plan, sheet, data),
        Err(refusal) => refusal,
    }
}

/// `read_by_trial` under a plan that is known to be accepted: checks 11 to 14.
pub fn read_by_trial_accepted(plan: &Plan, sheet: &mut [u8], data: &mut [u8]) -> Answer {
    match check_reading(Layout::Rows, plan, sheet, data) {
        Ok(()) => read_with(plan, burst_tried(plan, sheet), sheet, data),
        Err(refusal) => refusal,
    }
}

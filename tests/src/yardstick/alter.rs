//! Altering one data bit beyond the plan test, in plain Rust: the sums once over the sheet, and the joint
//! entry of one cell solved over the check cells.

use super::sheets::{checks_with, joint_sum};
use crate::answer::Answer;
use crate::model::{check_altering_by, turn_over, Cell};
use crate::plan::Plan;

/// Alter under an accepted plan: checks 11, 13, 17 and 18, then the cell of the position, and the check
/// cells that bring the sums back.
pub fn alter_accepted(plan: &Plan, sheet: &mut [u8], position: u32) -> Result<(), Answer> {
    check_altering_by(plan, sheet, position, joint_sum)?;
    let (i, j) = cell_at(plan, position as usize);
    turn_over(plan, sheet, (i, j));
    for check in checks_with(plan, plan.joint(i, j)) {
        turn_over(plan, sheet, check);
    }
    Ok(())
}

/// The cell of a position below k. Whole rows are passed over by the number of their data cells.
fn cell_at(plan: &Plan, position: usize) -> Cell {
    let (mut left, mut checks) = (position, &plan.checks[..]);
    for i in 0..plan.n1 {
        let (row, rest) =
            checks.split_at(checks.partition_point(|&(row, _)| usize::from(row) == i));
        let count = plan.n2 - row.len();
        if left < count {
            let is_data = |&j: &usize| row.iter().all(|&(_, check)| usize::from(check) != j);
            // In odd rows the data runs down, so that it is counted from the other end.
            let place = if i % 2 == 0 { left } else { count - 1 - left };
            let column = (0..plan.n2).filter(is_data).nth(place);
            return (i, column.expect("the row has so many data cells"));
        }
        left -= count;
        checks = rest;
    }
    unreachable!("the position is below k")
}

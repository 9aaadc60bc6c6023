//! Sheets by columns beyond the plan test, in plain Rust: the data in its order, each cell where it lies; the
//! sums in one pass over the cells, column by column, with the remainders counted along; and a sheet turned into
//! the other layout cell by cell.

use super::sheets::{read_by, write_by};
use crate::answer::Answer;
use crate::model::{check_reading, check_turning, check_writing, Cell, Layout, Sums};
use crate::plan::Plan;

/// Write under an accepted plan: checks 11 to 13, then the sheet.
pub fn write_by_column_accepted(plan: &Plan, data: &[u8], sheet: &mut [u8]) -> Result<(), Answer> {
    check_writing(Layout::Columns, plan, data, sheet)?;
    write_by(plan, data, sheet, |at| Layout::Columns.place(plan, at), sums);
    Ok(())
}

/// Read under an accepted plan: checks 11 to 13, then the sheet and its data, with check 14.
pub fn read_by_column_accepted(plan: &Plan, sheet: &mut [u8], data: &mut [u8]) -> Answer {
    match check_reading(Layout::Columns, plan, sheet, data) {
        Ok(()) => read_by(plan, sheet, data, |at| Layout::Columns.place(plan, at), sums),
        Err(refusal) => refusal,
    }
}

/// The V sum and the H sum of a sheet.
fn sums(plan: &Plan, sheet: &[u8]) -> Sums {
    let (mut v_sum, mut h_sum) = (0, 0);
    for (j, column) in sheet.chunks(plan.column_len()).enumerate() {
        let h = &plan.h[j * plan.b1..(j + 1) * plan.b1];
        let v = plan.v[j % plan.b2..].iter().step_by(plan.b2);
        for ((i, &v), &h) in v.enumerate().zip(h.iter().cycle()) {
            let dark = u32::from(column[i / 8] >> (i % 8) & 1).wrapping_neg();
            v_sum ^= v & dark;
            h_sum ^= h & dark;
        }
    }
    (v_sum, h_sum)
}

/// Turn a sheet from this layout into the other under an accepted plan: check 11 for both, 13 for the source, then
/// the target.
pub fn turn_accepted(
    from: Layout,
    plan: &Plan,
    source: &[u8],
    target: &mut [u8],
) -> Result<(), Answer> {
    check_turning(from, plan, source, target)?;
    let rows = |at| Layout::Rows.place(plan, at);
    let columns = |at| Layout::Columns.place(plan, at);
    match from {
        Layout::Rows => turn_by(plan, source, target, rows, columns),
        Layout::Columns => turn_by(plan, source, target, columns, rows),
    }
    Ok(())
}

/// Each cell from its place in the source to that in the target.
fn turn_by(
    plan: &Plan,
    source: &[u8],
    target: &mut [u8],
    place: impl Fn(Cell) -> (usize, usize),
    into: impl Fn(Cell) -> (usize, usize),
) {
    target.fill(0);
    for i in 0..plan.n1 {
        for j in 0..plan.n2 {
            let ((byte, bit), (to, shift)) = (place((i, j)), into((i, j)));
            target[to] |= (source[byte] >> bit & 1) << shift;
        }
    }
}

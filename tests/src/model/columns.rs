//! Sheets by columns, by the words of request i of document 02: written, read and mended as those by rows,
//! turned; and turned from one layout into the other.

use super::buffers::{check_reading, check_turning, check_writing};
use super::layout::{by_columns, by_rows, Layout};
use super::sheet::write_sheet;
use super::{accept, read_accepted};
use crate::answer::Answer;
use crate::plan::Plan;

/// Write the sheet by columns of `data`. A refusal changes nothing.
pub fn write_by_column(plan: &[u8], data: &[u8], sheet: &mut [u8]) -> Answer {
    match accept(plan) {
        Ok(plan) => write_by_column_accepted(&plan, data, sheet),
        Err(refusal) => refusal,
    }
}

/// `write_by_column` under a plan that is known to be accepted: checks 11 to 13.
pub fn write_by_column_accepted(plan: &Plan, data: &[u8], sheet: &mut [u8]) -> Answer {
    if let Err(refusal) = check_writing(Layout::Columns, plan, data, sheet) {
        return refusal;
    }
    sheet.copy_from_slice(&by_columns(plan, &write_sheet(plan, data)));
    Answer::default()
}

/// Read a sheet by columns: mend it and take its data out. A refusal changes nothing.
pub fn read_by_column(plan: &[u8], sheet: &mut [u8], data: &mut [u8]) -> Answer {
    match accept(plan) {
        Ok(plan) => read_by_column_accepted(&plan, sheet, data),
        Err(refusal) => refusal,
    }
}

/// `read_by_column` under a plan that is known to be accepted: checks 11 to 14.
pub fn read_by_column_accepted(plan: &Plan, sheet: &mut [u8], data: &mut [u8]) -> Answer {
    if let Err(refusal) = check_reading(Layout::Columns, plan, sheet, data) {
        return refusal;
    }
    let mut rows = by_rows(plan, sheet);
    let answer = read_accepted(plan, &mut rows, data);
    if !answer.is_refusal() {
        sheet.copy_from_slice(&by_columns(plan, &rows));
    }
    answer
}

/// Turn a sheet that lies in this layout into one in the other. A refusal changes nothing.
pub fn turn(from: Layout, plan: &[u8], source: &[u8], target: &mut [u8]) -> Answer {
    match accept(plan) {
        Ok(plan) => turn_accepted(from, &plan, source, target),
        Err(refusal) => refusal,
    }
}

/// `turn` under a plan that is known to be accepted: checks 11 for the source, 11 for the target, 13 for the
/// source.
pub fn turn_accepted(from: Layout, plan: &Plan, source: &[u8], target: &mut [u8]) -> Answer {
    if let Err(refusal) = check_turning(from, plan, source, target) {
        return refusal;
    }
    target.copy_from_slice(&from.turned(plan, source));
    Answer::default()
}

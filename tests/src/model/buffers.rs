//! The checks of the buffers that are lent beside the plan, and for each call those that it makes, in
//! order.

use std::ops::Range;

use super::layout::Layout::{self, Rows};
use super::put::faults;
use super::sheet::syndrome;
use super::stack::{sheet_places, NUMBERS_LEN};
use crate::answer::Answer;
use crate::plan::Plan;

/// Writing a sheet in this layout: checks 11 to 13.
pub fn check_writing(layout: Layout, plan: &Plan, data: &[u8], sheet: &[u8]) -> Result<(), Answer> {
    sheet_length(layout, plan, sheet)?;
    data_length(plan, data)?;
    unused_of_data(plan, data)
}

/// Reading a sheet in this layout: checks 11 to 13.
pub fn check_reading(layout: Layout, plan: &Plan, sheet: &[u8], data: &[u8]) -> Result<(), Answer> {
    sheet_length(layout, plan, sheet)?;
    data_length(plan, data)?;
    unused_of_sheet(layout, plan, sheet)
}

/// Turning a sheet from this layout into the other: checks 11 for the source, 11 for the target, 13 for the
/// source.
pub fn check_turning(
    from: Layout,
    plan: &Plan,
    source: &[u8],
    target: &[u8],
) -> Result<(), Answer> {
    sheet_length(from, plan, source)?;
    sheet_length(from.other(), plan, target)?;
    unused_of_sheet(from, plan, source)
}

/// Reading two scans: checks 11 for each, 12, 13 for each.
pub fn check_reading_two(
    plan: &Plan,
    first: &[u8],
    second: &[u8],
    data: &[u8],
) -> Result<(), Answer> {
    sheet_length(Rows, plan, first)?;
    sheet_length(Rows, plan, second)?;
    data_length(plan, data)?;
    unused_of_sheet(Rows, plan, first)?;
    unused_of_sheet(Rows, plan, second)
}

/// Finding where two scans differ: checks 11 and 13 for each.
pub fn check_comparing(plan: &Plan, first: &[u8], second: &[u8]) -> Result<(), Answer> {
    sheet_length(Rows, plan, first)?;
    sheet_length(Rows, plan, second)?;
    unused_of_sheet(Rows, plan, first)?;
    unused_of_sheet(Rows, plan, second)
}

/// Reading a stack: checks 20, 21 and 12. Where each of its sheets lies, if none fails.
pub fn check_reading_stack(
    plan: &Plan,
    stack: &[u8],
    numbers: &[u8],
    data: &[u8],
) -> Result<Vec<Range<usize>>, Answer> {
    let places = stack_form(plan, stack)?;
    numbers_length(places.len(), numbers)?;
    data_of_stack_length(plan, places.len(), data)?;
    Ok(places)
}

/// Summing a run: checks 11, 13 and 24.
pub fn check_summing(plan: &Plan, sheet: &[u8], sums: &[u8]) -> Result<(), Answer> {
    sheet_length(Rows, plan, sheet)?;
    unused_of_sheet(Rows, plan, sheet)?;
    sums_length(sums)
}

/// Altering: checks 11, 13, 17 and 18.
pub fn check_altering(plan: &Plan, sheet: &[u8], position: u32) -> Result<(), Answer> {
    check_altering_by(plan, sheet, position, syndrome)
}

/// `check_altering` with another way to sum the sheet (see `yardstick`).
pub fn check_altering_by(
    plan: &Plan,
    sheet: &[u8],
    position: u32,
    sums: impl Fn(&Plan, &[u8]) -> u64,
) -> Result<(), Answer> {
    sheet_length(Rows, plan, sheet)?;
    unused_of_sheet(Rows, plan, sheet)?;
    position_of_data(plan, position)?;
    belonging(sums(plan, sheet))
}

/// Putting a burst back: checks 11, 13 and 22.
pub fn check_putting_back(plan: &Plan, sheet: &[u8], answer: u64) -> Result<(), Answer> {
    check_sheet(plan, sheet)?;
    answer_of_a_burst(plan, answer)
}

/// A sheet by rows alone: checks 11 and 13.
pub fn check_sheet(plan: &Plan, sheet: &[u8]) -> Result<(), Answer> {
    sheet_length(Rows, plan, sheet)?;
    unused_of_sheet(Rows, plan, sheet)
}

/// Check 11.
fn sheet_length(layout: Layout, plan: &Plan, sheet: &[u8]) -> Result<(), Answer> {
    Answer::refuse_if(sheet.len() != layout.sheet_len(plan), 11)
}

/// Check 12.
fn data_length(plan: &Plan, data: &[u8]) -> Result<(), Answer> {
    Answer::refuse_if(data.len() != plan.data_len(), 12)
}

/// Check 13 of data of the right length. Only the last byte can have unused bits.
fn unused_of_data(plan: &Plan, data: &[u8]) -> Result<(), Answer> {
    let spare = 8 * data.len() - plan.data_bits();
    let fails = spare > 0 && data[data.len() - 1] >> (8 - spare) != 0;
    Answer::refuse_at(fails.then(|| (data.len() - 1, 0)), 13)
}

/// Check 13 of a sheet of the right length.
fn unused_of_sheet(layout: Layout, plan: &Plan, sheet: &[u8]) -> Result<(), Answer> {
    let unused = layout.unused_bits(plan);
    let mut line_ends = (1..=layout.lines(plan)).map(|past| past * layout.line_len(plan) - 1);
    let byte = line_ends.find(|&byte| sheet[byte] & unused != 0);
    Answer::refuse_at(byte.map(|byte| (byte, 0)), 13)
}

/// Check 17.
fn position_of_data(plan: &Plan, position: u32) -> Result<(), Answer> {
    Answer::refuse_if(position as usize >= plan.data_bits(), 17)
}

/// Check 18 of a sheet with these two sums, as one number.
fn belonging(sums: u64) -> Result<(), Answer> {
    Answer::refuse_if(sums != 0, 18)
}

/// Check 20.
fn stack_form(plan: &Plan, stack: &[u8]) -> Result<Vec<Range<usize>>, Answer> {
    sheet_places(plan, stack).ok_or(Answer::refusal(20, 0, 0))
}

/// Check 21, with so many sheets in the stack.
fn numbers_length(sheets: usize, numbers: &[u8]) -> Result<(), Answer> {
    Answer::refuse_if(numbers.len() != NUMBERS_LEN * sheets, 21)
}

/// Check 12 of the data of a whole stack.
fn data_of_stack_length(plan: &Plan, sheets: usize, data: &[u8]) -> Result<(), Answer> {
    Answer::refuse_if(data.len() != sheets * plan.data_len(), 12)
}

/// Check 22.
fn answer_of_a_burst(plan: &Plan, answer: u64) -> Result<(), Answer> {
    Answer::refuse_if(!faults(plan, answer).is_empty(), 22)
}

/// Check 24.
fn sums_length(sums: &[u8]) -> Result<(), Answer> {
    Answer::refuse_if(sums.len() != 8, 24)
}

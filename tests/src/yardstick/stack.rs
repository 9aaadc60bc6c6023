//! A stack of sheets beyond the plan test, in plain Rust: each sheet is read as one, where it lies.

use super::sheets::read_accepted;
use crate::answer::Answer;
use crate::model::{check_reading, check_reading_stack, Layout, NUMBERS_LEN};
use crate::plan::Plan;

/// Read a stack under an accepted plan: checks 20, 21 and 12, then each sheet with checks 13 and 14.
pub fn read_stack_accepted(
    plan: &Plan,
    stack: &mut [u8],
    numbers: &mut [u8],
    data: &mut [u8],
) -> Result<(), Answer> {
    let places = check_reading_stack(plan, stack, numbers, data)?;
    for (at, (place, into)) in places.into_iter().zip(numbers.chunks_mut(NUMBERS_LEN)).enumerate() {
        let text = &mut data[at * plan.data_len()..(at + 1) * plan.data_len()];
        let sheet = &mut stack[place];
        let answer = match check_reading(Layout::Rows, plan, sheet, text) {
            Ok(()) => read_accepted(plan, sheet, text),
            Err(refusal) => refusal,
        };
        for (two, field) in into.chunks_mut(2).zip(answer.fields()) {
            two.copy_from_slice(&(field as u16).to_le_bytes());
        }
    }
    Ok(())
}

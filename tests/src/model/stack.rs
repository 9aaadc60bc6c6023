//! A stack of sheets, by the words of request h of document 02.

use std::ops::Range;

use super::read_accepted;
use crate::plan::Plan;

/// Bytes of the numbers of one sheet: nine of 16 bits (request k).
pub const NUMBERS_LEN: usize = 18;

/// Where each sheet of a stack lies, if header and length keep the rules: 0 to 64 sheets, rooms 0 or 1, and
/// sheets that follow the header in its order and without gaps, up to the end of the stack.
pub fn sheet_places(plan: &Plan, stack: &[u8]) -> Option<Vec<Range<usize>>> {
    let (count, mut entries) = stack.split_first_chunk()?;
    let count = usize::from(u16::from_le_bytes(*count));
    if count > 64 {
        return None;
    }
    let mut end = 2 + 6 * count;
    let mut places = Vec::new();
    for _ in 0..count {
        let (room, rest) = entries.split_first_chunk()?;
        let (offset, rest) = rest.split_first_chunk()?;
        entries = rest;
        if u16::from_le_bytes(*room) > 1 || u32::from_le_bytes(*offset) as usize != end {
            return None;
        }
        places.push(end..end + plan.sheet_len());
        end += plan.sheet_len();
    }
    (end == stack.len()).then_some(places)
}

/// Read each sheet, which lies at these places, as if it were alone: its nine numbers and its data go where
/// the buffers have room for those of its place. A refused sheet and its data stay as they are.
pub fn read_each(
    plan: &Plan,
    places: Vec<Range<usize>>,
    stack: &mut [u8],
    numbers: &mut [u8],
    data: &mut [u8],
) {
    for (sheet, place) in places.into_iter().enumerate() {
        let text = &mut data[sheet * plan.data_len()..(sheet + 1) * plan.data_len()];
        let answer = read_accepted(plan, &mut stack[place], text);
        let told = answer.fields().map(|number| (number as u16).to_le_bytes());
        numbers[NUMBERS_LEN * sheet..NUMBERS_LEN * (sheet + 1)].copy_from_slice(&told.concat());
    }
}

//! Two scans beyond the plan test, in plain Rust: each is mended in a copy of its own, and its data taken
//! out; rows are compared as bytes.

use std::ops::Range;

use super::sheets::read_accepted;
use crate::answer::Answer;
use crate::model::{check_comparing, check_reading_two};
use crate::plan::Plan;

/// Read two scans under an accepted plan: checks 11 to 13, then the data of each that can be mended, and
/// checks 14 and 19.
pub fn read_two_accepted(
    plan: &Plan,
    first: &[u8],
    second: &[u8],
    data: &mut [u8],
) -> Result<(), Answer> {
    check_reading_two(plan, first, second, data)?;
    let one = mended_data(plan, first);
    let other = mended_data(plan, second);
    let differ = one.is_some() && other.is_some() && one != other;
    let given = one.or(other).ok_or(Answer::refusal(14, 0, 0))?;
    Answer::refuse_if(differ, 19)?;
    data.copy_from_slice(&given);
    Ok(())
}

fn mended_data(plan: &Plan, scan: &[u8]) -> Option<Vec<u8>> {
    let (mut mended, mut data) = (scan.to_vec(), vec![0; plan.data_len()]);
    let answer = read_accepted(plan, &mut mended, &mut data);
    (!answer.is_refusal()).then_some(data)
}

/// The row where two scans first differ, by its places, under an accepted plan: checks 11 and 13, and then
/// row by row. No places stand for a refusal too.
pub fn first_difference_accepted(plan: &Plan, first: &[u8], second: &[u8]) -> Range<usize> {
    if check_comparing(plan, first, second).is_err() {
        return 0..0;
    }
    let len = plan.row_len();
    let mut rows = first.chunks(len).zip(second.chunks(len));
    rows.position(|(one, other)| one != other).map_or(0..0, |row| row * len..(row + 1) * len)
}

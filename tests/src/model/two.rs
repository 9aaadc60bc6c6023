//! Two scans of one film, by the words of request g of document 02.

use std::ops::Range;

use super::mend::burst_by_search;
use super::sheet::{cell, data_of, turn_over};
use crate::answer::Answer;
use crate::plan::Plan;

/// The data of both scans if both can be mended and their data agree, or of the one that can be mended.
pub fn data_of_two(plan: &Plan, first: &[u8], second: &[u8]) -> Result<Vec<u8>, Answer> {
    match (mended_data(plan, first), mended_data(plan, second)) {
        (None, None) => Err(Answer::refusal(14, 0, 0)),
        (Some(one), Some(other)) if one != other => Err(Answer::refusal(19, 0, 0)),
        (Some(data), _) | (None, Some(data)) => Ok(data),
    }
}

/// The data of the scan as it is once mended, if it can be.
pub fn mended_data(plan: &Plan, scan: &[u8]) -> Option<Vec<u8>> {
    let mut mended = scan.to_vec();
    for at in burst_by_search(plan, scan)? {
        turn_over(plan, &mut mended, at);
    }
    Some(data_of(plan, &mended))
}

/// The bytes of the first row in which a cell differs, by their places in the second scan. They are none
/// if no cell does.
pub fn differing_row(plan: &Plan, first: &[u8], second: &[u8]) -> Range<usize> {
    let differs = |i, j| cell(plan, first, (i, j)) != cell(plan, second, (i, j));
    match (0..plan.n1).find(|&i| (0..plan.n2).any(|j| differs(i, j))) {
        Some(i) => i * plan.row_len()..(i + 1) * plan.row_len(),
        None => 0..0,
    }
}

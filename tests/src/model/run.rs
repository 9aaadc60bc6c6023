//! The two sums of a run of rows, by the words of request e of document 02.

use std::ops::Range;

use super::sheet::cell;
use crate::plan::Plan;

/// The V sum and the H sum.
pub type Sums = (u32, u32);

/// The two sums of the rows from `run.start` up to but not including `run.end`: of those that
/// are on the sheet, since rows past it add nothing. If the end is at or below the start, there is none.
pub fn run_sums(plan: &Plan, sheet: &[u8], run: Range<u32>) -> Sums {
    let (first, past) = (run.start as usize, run.end as usize);
    let (mut v, mut h) = (0, 0);
    for i in (0..plan.n1).filter(|&i| first <= i && i < past) {
        for j in (0..plan.n2).filter(|&j| cell(plan, sheet, (i, j))) {
            v ^= plan.v_entry(i, j);
            h ^= plan.h_entry(i, j);
        }
    }
    (v, h)
}

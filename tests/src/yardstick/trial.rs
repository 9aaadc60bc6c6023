//! Reading by trial beyond the plan test, in plain Rust: of each rectangle the V and the H entries of its cells are
//! gathered, sixteen words with zeros after them, and of each pattern those that it chooses are added up; the V entries
//! first, and the H entries only where these agree with the sheet's.

use super::sheets::{mend_by, whole};
use crate::answer::Answer;
use crate::model::{check_reading, Cell, Layout, Sums};
use crate::plan::Plan;

/// Read under an accepted plan: checks 11 to 13, then the sheet and its data, with check 14.
pub fn read_by_trial_accepted(plan: &Plan, sheet: &mut [u8], data: &mut [u8]) -> Answer {
    match check_reading(Layout::Rows, plan, sheet, data) {
        Ok(()) => {
            let found = burst(plan, whole(plan, sheet));
            mend_by(plan, sheet, data, |at| Layout::Rows.place(plan, at), found)
        }
        Err(refusal) => refusal,
    }
}

/// The first pattern of a burst that has these two sums: each rectangle in sheet order, each pattern by its
/// number.
fn burst(plan: &Plan, (v_sum, h_sum): Sums) -> Option<Vec<Cell>> {
    let count = plan.b1 * plan.b2;
    let (mut v, mut h) = ([0; 16], [0; 16]);
    let few = |pattern: &u32| pattern.count_ones() as usize <= plan.t;
    let all = 0..1u32 << count;
    let of_few: Vec<_> = if plan.t == 0 { vec![] } else { all.clone().filter(few).collect() };
    for top in 0..=plan.n1 - plan.b1 {
        for left in 0..=plan.n2 - plan.b2 {
            let cell = |at: usize| (top + at / plan.b2, left + at % plan.b2);
            for at in 0..count {
                let (i, j) = cell(at);
                (v[at], h[at]) = (plan.v_entry(i, j), plan.h_entry(i, j));
            }
            let fits =
                |&pattern: &u32| chosen(&v, pattern) == v_sum && chosen(&h, pattern) == h_sum;
            let found = if plan.t == 0 {
                all.clone().find(fits)
            } else {
                of_few.iter().copied().find(fits)
            };
            if let Some(pattern) = found {
                return Some((0..count).filter(|at| pattern >> at & 1 == 1).map(cell).collect());
            }
        }
    }
    None
}

/// The exclusive-or of the entries that a pattern chooses: of a fixed number, which is faster than of as many as there
/// are cells.
fn chosen(entries: &[u32; 16], pattern: u32) -> u32 {
    let chosen = |at: usize| (pattern >> at & 1).wrapping_neg();
    entries.iter().enumerate().fold(0, |sum, (at, entry)| sum ^ entry & chosen(at))
}

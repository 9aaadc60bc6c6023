//! When a plan is accepted: checks 6 to 10, after those of the header in `plan`. Checks 8 and 9 of a plan
//! whose t is not 0 are in `sparse`.

use super::algebra::{independent, Span};
use super::sparse::{alike_windows, vanishing_strips};
use crate::answer::{Answer, Places};
use crate::plan::Plan;

/// The answer of the plan test.
pub fn test_plan(bytes: &[u8]) -> Answer {
    accept(bytes).err().unwrap_or_default()
}

/// The plan in these bytes, or the refusal of the first check that fails.
pub fn accept(bytes: &[u8]) -> Result<Plan, Answer> {
    accept_by(bytes, failing_windows, failing_strips)
}

/// `accept` with other ways to find the first windows and strips that fail (see `yardstick`).
pub fn accept_by(
    bytes: &[u8],
    windows: impl Fn(&Plan) -> Places,
    strips: impl Fn(&Plan) -> Places,
) -> Result<Plan, Answer> {
    let plan = Plan::parse(bytes)?;
    Answer::refuse_at(too_large(&plan), 6)?;
    Answer::refuse_at(misplaced_check(&plan), 7)?;
    Answer::refuse_at(windows(&plan), 8)?;
    Answer::refuse_at(strips(&plan), 9)?;
    Answer::refuse_at(dependent_check(&plan), 10)?;
    Ok(plan)
}

/// The first entry that has a bit beyond its width: table 0 for V, 1 for H, and index.
fn too_large(plan: &Plan) -> Places {
    let tables = [(&plan.v, plan.rv), (&plan.h, plan.rh)];
    tables.into_iter().enumerate().find_map(|(table, (entries, width))| {
        let index = entries.iter().position(|&entry| u64::from(entry) >= 1 << width)?;
        Some((table, index))
    })
}

/// The first check cell that is off the sheet or not after the one before.
fn misplaced_check(plan: &Plan) -> Places {
    let misplaced = |index: usize| {
        let (row, column) = plan.checks[index];
        let off = usize::from(row) >= plan.n1 || usize::from(column) >= plan.n2;
        off || index > 0 && plan.checks[index] <= plan.checks[index - 1]
    };
    (0..plan.checks.len()).find(|&index| misplaced(index)).map(|index| (index, 0))
}

/// The first two windows that fail check 8, as it is read for the plan's t.
pub fn failing_windows(plan: &Plan) -> Places {
    if plan.t == 0 {
        dependent_windows(plan)
    } else {
        alike_windows(plan)
    }
}

/// The first two strips that fail check 9, as it is read for the plan's t.
pub fn failing_strips(plan: &Plan) -> Places {
    if plan.t == 0 {
        dependent_strips(plan)
    } else {
        vanishing_strips(plan)
    }
}

/// The first two windows of b1 rows, possibly the same, whose V entries are dependent.
fn dependent_windows(plan: &Plan) -> Places {
    let windows = plan.n1 - plan.b1 + 1;
    for first in 0..windows {
        for second in first..windows {
            if !independent(window_entries(plan, first, second)) {
                return Some((first, second));
            }
        }
    }
    None
}

/// The V entries of the rows in either of two windows, each position once.
pub fn window_entries(plan: &Plan, first: usize, second: usize) -> impl Iterator<Item = u64> + '_ {
    let not_in_first = second.max(first + plan.b1)..second + plan.b1;
    let rows = (first..first + plan.b1).chain(not_in_first);
    rows.flat_map(|row| &plan.v[row * plan.b2..(row + 1) * plan.b2]).map(|&entry| entry.into())
}

/// The first two strips of b2 columns whose members are dependent.
fn dependent_strips(plan: &Plan) -> Places {
    let strips = plan.n2 - plan.b2 + 1;
    for first in 0..strips {
        for second in first + 1..strips {
            if !independent(strip_members(plan, first, second)) {
                return Some((first, second));
            }
        }
    }
    None
}

/// The members of two strips: for each remainder modulo b2 that stands on different columns in
/// them, and each r below b1, the exclusive-or of the two H entries for r.
pub fn strip_members(plan: &Plan, first: usize, second: usize) -> impl Iterator<Item = u64> + '_ {
    let standing = move |strip: usize, remainder: usize| {
        let mut columns = strip..strip + plan.b2;
        columns.find(|column| column % plan.b2 == remainder).expect("each remainder stands once")
    };
    let columns = (0..plan.b2).map(move |m| (standing(first, m), standing(second, m)));
    columns.filter(|(j1, j2)| j1 != j2).flat_map(move |(j1, j2)| {
        (0..plan.b1).map(move |r| u64::from(plan.h[j1 * plan.b1 + r] ^ plan.h[j2 * plan.b1 + r]))
    })
}

/// The first check cell whose joint entry is an exclusive-or of earlier ones; 0 is one of none.
fn dependent_check(plan: &Plan) -> Places {
    let mut earlier = Span::default();
    let joint = |&(row, column): &(u16, u16)| plan.joint(row.into(), column.into());
    let index = plan.checks.iter().position(|check| !earlier.add(joint(check)))?;
    Some((index, 0))
}

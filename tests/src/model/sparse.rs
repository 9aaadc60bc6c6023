//! Bursts of few cells, by the words of request m of document 02: checks 8 and 9 of a plan whose t is 1 or
//! 2, by trial of every set that they speak of.

use super::accept::strip_members;
use crate::answer::Places;
use crate::plan::Plan;

/// A set of at most two positions, by their places in the V table in rising order; and the exclusive-or of
/// its entries.
#[derive(Clone, Copy, Debug, PartialEq, Eq)]
struct Set {
    positions: (Option<usize>, Option<usize>),
    sum: u32,
}

/// The first two windows of b1 rows, possibly the same, for which there are two different sets of at most t
/// positions, one in each window, with the same V sum. The empty set is one of them, and the two may share
/// positions.
pub fn alike_windows(plan: &Plan) -> Places {
    let windows: Vec<_> = (0..=plan.n1 - plan.b1).map(|top| sets_in(plan, top)).collect();
    for (first, of_first) in windows.iter().enumerate() {
        for (second, of_second) in windows.iter().enumerate().skip(first) {
            if are_alike(of_first, of_second) {
                return Some((first, second));
            }
        }
    }
    None
}

/// Are there two different sets, one of each, with the same sum?
fn are_alike(first: &[Set], second: &[Set]) -> bool {
    first.iter().any(|one| second.iter().any(|other| one.sum == other.sum && one != other))
}

/// All sets of at most t positions in the window that starts at this row. A position is that of a V entry.
fn sets_in(plan: &Plan, top: usize) -> Vec<Set> {
    let positions = top * plan.b2..(top + plan.b1) * plan.b2;
    let mut sets = vec![Set { positions: (None, None), sum: 0 }];
    for one in positions.clone() {
        sets.push(Set { positions: (Some(one), None), sum: plan.v[one] });
        for other in (one + 1..positions.end).filter(|_| plan.t == 2) {
            let sum = plan.v[one] ^ plan.v[other];
            sets.push(Set { positions: (Some(one), Some(other)), sum });
        }
    }
    sets
}

/// The first two strips of b2 columns of whose members a nonempty set of at most t has exclusive-or 0.
pub fn vanishing_strips(plan: &Plan) -> Places {
    let strips = plan.n2 - plan.b2 + 1;
    for first in 0..strips {
        for second in first + 1..strips {
            let members: Vec<_> = strip_members(plan, first, second).collect();
            if vanish(&members, plan.t) {
                return Some((first, second));
            }
        }
    }
    None
}

/// Has a nonempty set of at most t of these, which is 1 or 2, exclusive-or 0? Equal members at different
/// places are two.
fn vanish(members: &[u64], t: usize) -> bool {
    let one = members.contains(&0);
    let two = members
        .iter()
        .enumerate()
        .any(|(at, one)| members[at + 1..].iter().any(|other| one ^ other == 0));
    one || t == 2 && two
}

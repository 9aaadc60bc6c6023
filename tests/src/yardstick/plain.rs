//! The pair tests as one writes them first, and of each its first row: the pairs with the first window
//! or strip. In a table of powers, modulo a polynomial with constant term 1, a pair fails exactly if
//! the one does that stands as far apart and begins with the first; so the first row decides, and its
//! first failing pair is the first of all.

use super::{sparse, Basis};
use crate::answer::Places;
use crate::plan::Plan;

pub fn windows(plan: &Plan) -> Places {
    if plan.t != 0 {
        return sparse::windows(plan);
    }
    (0..=plan.n1 - plan.b1).find_map(|i| windows_after(plan, i))
}

pub fn strips(plan: &Plan) -> Places {
    if plan.t != 0 {
        return sparse::strips(plan);
    }
    (0..=plan.n2 - plan.b2).find_map(|c| strips_after(plan, c))
}

pub fn first_row_of_windows(plan: &Plan) -> Places {
    if plan.t != 0 {
        return sparse::first_row_of_windows(plan);
    }
    windows_after(plan, 0)
}

pub fn first_row_of_strips(plan: &Plan) -> Places {
    if plan.t != 0 {
        return sparse::first_row_of_strips(plan);
    }
    strips_after(plan, 0)
}

/// The window at i with itself and with each after it.
fn windows_after(plan: &Plan, i: usize) -> Places {
    let (b1, b2) = (plan.b1, plan.b2);
    let mut first = Basis::EMPTY;
    for &entry in &plan.v[i * b2..(i + b1) * b2] {
        if !first.add(entry) {
            return Some((i, i));
        }
    }
    for i2 in i + 1..=plan.n1 - b1 {
        let mut both = first;
        for &entry in &plan.v[i2.max(i + b1) * b2..(i2 + b1) * b2] {
            if !both.add(entry) {
                return Some((i, i2));
            }
        }
    }
    None
}

/// The strip at c with each after it.
fn strips_after(plan: &Plan, c: usize) -> Places {
    let (b1, b2) = (plan.b1, plan.b2);
    for c2 in c + 1..=plan.n2 - b2 {
        let mut members = Basis::EMPTY;
        // The columns of the second strip that are not in the first, each with the column of the
        // first that has its remainder.
        for j2 in c2.max(c + b2)..c2 + b2 {
            let j = c + (j2 - c) % b2;
            for r in 0..b1 {
                if !members.add(plan.h[j * b1 + r] ^ plan.h[j2 * b1 + r]) {
                    return Some((c, c2));
                }
            }
        }
    }
    None
}

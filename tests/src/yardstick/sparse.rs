//! The pair tests of a plan whose bursts have few cells, and the pattern of such a burst, in plain Rust.
//!
//! Of a fixed first window the sums of its sets are held, at most 137, with a map of some of their digits.
//! Every later set matters once, at its last row: with that row it first stands inside a window, and most
//! of these questions are answered by one look at the map. Strips go likewise: with each later column its
//! members come in. Of a table of powers the first row of pairs decides, since multiplication by z keeps
//! sums apart.

use std::ops::Range;

use crate::answer::Places;
use crate::plan::Plan;

/// The most sets of at most two positions that a window has: none, 16 of one, 120 of two.
const MOST_SETS: usize = 137;

/// How many digits of a sum the map tells apart.
const DIGITS: u32 = 15;

/// The sums of the sets of one window.
struct Sums {
    all: [u32; MOST_SETS],
    count: usize,
    map: [u64; 1 << (DIGITS - 6)],
}

impl Sums {
    /// The sum of the empty set alone.
    fn of_none() -> Sums {
        let mut sums = Sums { all: [0; MOST_SETS], count: 0, map: [0; 1 << (DIGITS - 6)] };
        sums.add(0);
        sums
    }

    #[inline(always)]
    fn has(&self, sum: u32) -> bool {
        let digits = sum as usize & ((1 << DIGITS) - 1);
        self.map[digits / 64] >> (digits % 64) & 1 == 1 && self.is_there(sum)
    }

    /// Asked seldom: of one sum in hundreds.
    #[cold]
    #[inline(never)]
    fn is_there(&self, sum: u32) -> bool {
        self.all[..self.count].contains(&sum)
    }

    /// Add a sum; true if it was there.
    fn add(&mut self, sum: u32) -> bool {
        let there = self.has(sum);
        let digits = sum as usize & ((1 << DIGITS) - 1);
        self.map[digits / 64] |= 1 << (digits % 64);
        self.all[self.count] = sum;
        self.count += 1;
        there
    }
}

pub fn windows(plan: &Plan) -> Places {
    (0..=plan.n1 - plan.b1).find_map(|i| windows_after(plan, i))
}

pub fn strips(plan: &Plan) -> Places {
    (0..=plan.n2 - plan.b2).find_map(|c| strips_after(plan, c))
}

pub fn first_row_of_windows(plan: &Plan) -> Places {
    windows_after(plan, 0)
}

pub fn first_row_of_strips(plan: &Plan) -> Places {
    strips_after(plan, 0)
}

/// All rows of pairs, or the first alone if that decides.
pub fn windows_by_look(plan: &Plan) -> Places {
    if are_powers(&plan.v, plan.rv) {
        first_row_of_windows(plan)
    } else {
        windows(plan)
    }
}

pub fn strips_by_look(plan: &Plan) -> Places {
    if are_powers(&plan.h, plan.rh) {
        first_row_of_strips(plan)
    } else {
        strips(plan)
    }
}

/// Is each entry z times the one before, modulo one polynomial of this degree with constant term 1?
fn are_powers(table: &[u32], degree: usize) -> bool {
    let carries = |entry: u32| entry >> (degree - 1) == 1;
    let shifted = |entry: u32| ((u64::from(entry) << 1) & ((1 << degree) - 1)) as u32;
    let steps = || table.iter().zip(&table[1..]);
    let low = steps().find(|(&one, _)| carries(one)).map_or(1, |(&one, &next)| shifted(one) ^ next);
    let next = |one: u32| shifted(one) ^ if carries(one) { low } else { 0 };
    low & 1 == 1 && steps().all(|(&one, &then)| next(one) == then)
}

/// The window at i with itself and with each after it.
fn windows_after(plan: &Plan, i: usize) -> Places {
    let mut sums = Sums::of_none();
    for y in i..i + plan.b1 {
        if any_set(plan, i..y, y, |sum| sums.add(sum)) {
            return Some((i, i));
        }
    }
    let mut later = i + plan.b1..plan.n1;
    let y = later.find(|&y| any_set(plan, y + 1 - plan.b1..y, y, |sum| sums.has(sum)))?;
    Some((i, y + 1 - plan.b1))
}

/// Does this hold of the sum of some set that has an entry of row y and else none but of that row or of
/// these?
#[inline(always)]
fn any_set(
    plan: &Plan,
    before: Range<usize>,
    y: usize,
    mut holds: impl FnMut(u32) -> bool,
) -> bool {
    let row = &plan.v[y * plan.b2..(y + 1) * plan.b2];
    let earlier = &plan.v[before.start * plan.b2..before.end * plan.b2];
    for (at, &entry) in row.iter().enumerate() {
        if holds(entry) {
            return true;
        }
        let mut with = |others: &[u32]| others.iter().any(|other| holds(entry ^ other));
        if plan.t == 2 && (with(earlier) || with(&row[..at])) {
            return true;
        }
    }
    false
}

/// The strip at c with each after it: the members that each later column brings, beside 0, and beside those
/// of the columns before it in the strip that it ends.
fn strips_after(plan: &Plan, c: usize) -> Places {
    let (b1, b2) = (plan.b1, plan.b2);
    // The members of the last b2 columns, each at the place of its remainder.
    let mut held = [0; 16];
    let first = c + b2;
    for j2 in first..plan.n2 {
        let place = (j2 - c) % b2;
        let (over, of) = (&plan.h[(c + place) * b1..], &plan.h[j2 * b1..]);
        for r in 0..b1 {
            let member = over[r] ^ of[r];
            held[place * b1 + r] = member;
            let fails = member == 0
                || plan.t == 2 && {
                    let own = held[place * b1..place * b1 + r].contains(&member);
                    let before = (0..b2).filter(|&at| at != place && at < j2 - first);
                    own || before
                        .into_iter()
                        .any(|at| held[at * b1..(at + 1) * b1].contains(&member))
                };
            if fails {
                return Some((c, j2 + 1 - b2));
            }
        }
    }
    None
}

/// The one set of at most t positions of a window that has this V sum, if there is one: row and remainder
/// of each.
pub fn positions_with(plan: &Plan, v_sum: u32) -> Option<Vec<(usize, usize)>> {
    if v_sum == 0 {
        return Some(vec![]);
    }
    let b2 = plan.b2;
    for y in 0..plan.n1 {
        for (m, &entry) in plan.v[y * b2..(y + 1) * b2].iter().enumerate() {
            if entry == v_sum {
                return Some(vec![(y, m)]);
            }
            let before = (y + 1).saturating_sub(plan.b1) * b2..y * b2 + m;
            let other = before.clone().find(|&at| plan.t == 2 && entry ^ plan.v[at] == v_sum);
            if let Some(at) = other {
                return Some(vec![(at / b2, at % b2), (y, m)]);
            }
        }
    }
    None
}

//! Tables of powers, in which each entry is z times the one before modulo one polynomial, tables that are
//! nearly so, and random ones; and small plans that have them, accepted or not.

use crate::make::{low_widths, most_checks, powers, powers_from, CellOrder, Polynomial};
use crate::plan::Plan;
use crate::rng::Rng;

/// A way to make a table: of so many entries, below 2 to the power of this width.
pub type Table = fn(&mut Rng, usize, usize) -> Vec<u32>;

/// A plan of these tables on a small sheet, for bursts of at most t cells; of any, if t is 0.
pub fn small_plan(rng: &mut Rng, [b1, b2, t]: [usize; 3], v: Table, h: Table) -> Plan {
    let mut shape = small_shape([b1, b2, t], rng);
    shape.v = v(rng, shape.n1 * b2, shape.rv);
    shape.h = h(rng, shape.n2 * b1, shape.rh);
    let order = rng.pick(&[CellOrder::Sheet, CellOrder::Scattered]);
    shape.with_any_checks(order, rng)
}

/// Sizes, and room for a check list, most often one that can be independent. The widths are any, or
/// about those from which on plans are accepted.
fn small_shape([b1, b2, t]: [usize; 3], rng: &mut Rng) -> Plan {
    loop {
        let (n1, n2) = (rng.within(b1, b1 + 9), rng.within(b2, b2 + 9));
        let (low_rv, low_rh) = low_widths([n1, n2, b1, b2], t);
        let mut width = |low: usize| match rng.below(4) {
            0 => rng.within(1, 32),
            1 => low.min(32),
            _ => rng.within(low + 1, low + 10).min(32),
        };
        let (rv, rh) = (width(low_rv), width(low_rh));
        let most = most_checks(n1, n2, b1, b2);
        let room = if rng.one_in(4) { n1 * n2 } else { most.min(n1 * n2) };
        if rv + rh <= room {
            return Plan { n1, n2, b1, b2, t, rv, rh, v: vec![], h: vec![], checks: vec![] };
        }
    }
}

/// A random polynomial of this degree with constant term 1.
fn invertible(rng: &mut Rng, degree: usize) -> Polynomial {
    Polynomial { degree, low: rng.bits(degree) | 1 }
}

pub fn of_powers(rng: &mut Rng, count: usize, width: usize) -> Vec<u32> {
    powers(count, invertible(rng, width))
}

/// The same with constant term 0: z has no inverse, and a power may be 0.
pub fn without_inverse(rng: &mut Rng, count: usize, width: usize) -> Vec<u32> {
    let modulus = invertible(rng, width);
    powers(count, Polynomial { low: modulus.low & !1, ..modulus })
}

pub fn from_another(rng: &mut Rng, count: usize, width: usize) -> Vec<u32> {
    let first = rng.bits(width);
    powers_from(first, count, invertible(rng, width))
}

pub fn zeros(_: &mut Rng, count: usize, _: usize) -> Vec<u32> {
    vec![0; count]
}

pub fn random(rng: &mut Rng, count: usize, width: usize) -> Vec<u32> {
    (0..count).map(|_| rng.bits(width)).collect()
}

/// Powers modulo one polynomial, and from some place on modulo another.
pub fn of_two_polynomials(rng: &mut Rng, count: usize, width: usize) -> Vec<u32> {
    let mut entries = of_powers(rng, count, width);
    let place = rng.below(count);
    let rest = powers_from(entries[place], count - place, invertible(rng, width));
    entries.splice(place.., rest);
    entries
}

/// z^k with no modulus: the digit that has no room is lost, and zeros follow.
pub fn shifted(_: &mut Rng, count: usize, width: usize) -> Vec<u32> {
    powers(count, Polynomial { degree: width, low: 0 })
}

/// The plan with the entry at this place, V before H, changed to another that is small enough: to any,
/// in one bit, or to another entry of the table.
pub fn with_entry_changed(plan: &Plan, at: usize, rng: &mut Rng) -> Plan {
    let mut plan = plan.clone();
    let (table, width, at) = match at.checked_sub(plan.v.len()) {
        None => (&mut plan.v, plan.rv, at),
        Some(at) => (&mut plan.h, plan.rh, at),
    };
    let other = match rng.below(3) {
        0 => rng.bits(width),
        1 => table[at] ^ 1 << rng.below(width),
        _ => table[rng.below(table.len())],
    };
    table[at] = if other == table[at] { other ^ 1 } else { other };
    plan
}

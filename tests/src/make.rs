//! Plans made to be accepted.

use crate::cases::{plan_s, plan_t, plan_tall, plan_two_rows};
use crate::model::{self, Span};
use crate::plan::Plan;
use crate::rng::Rng;
use crate::sparse::few_of_4x4;

/// A binary polynomial: z^degree plus the powers below it, bit i of `low` for z^i.
#[derive(Clone, Copy, Debug)]
pub struct Polynomial {
    pub degree: usize,
    pub low: u32,
}

/// Bursts of one cell ask only that entries differ, and the powers of z modulo this polynomial do so
/// up to the 1023rd.
pub const SINGLE: Polynomial = Polynomial { degree: 10, low: 0x9 };

/// Tables of powers for 3 × 3 bursts on 512 rows and 698 columns. Of all polynomials with constant
/// term 1, none of smaller degree serves, and none of this degree with a smaller `low` (`make find`
/// tries them in this order; docs/PLANS.md).
pub const V_3X3: Polynomial = Polynomial { degree: 22, low: 0x3_9f0d };
pub const H_3X3: Polynomial = Polynomial { degree: 14, low: 0x8f7 };

/// The same for 4 × 4 bursts on 698 columns.
pub const H_4X4: Polynomial = Polynomial { degree: 21, low: 0x3a09 };

/// A polynomial of degree 32 that serves for 3 × 3 bursts in both tables: that of CRC-32.
pub const WIDE: Polynomial = Polynomial { degree: 32, low: 0x04c1_1db7 };

/// Two whose tables pass all pairs for 3 × 3 bursts at full size. Each has an even number of terms, so
/// that together they leave too few check cells.
pub const V_EVEN: Polynomial = Polynomial { degree: 24, low: 0x30_99fd };
pub const H_EVEN: Polynomial = Polynomial { degree: 16, low: 0xd707 };

/// For 4 × 4 bursts two windows that do not overlap fill all of rv = 32, and powers of z serve for
/// a few dozen rows at best. With `field_rows` this ratio serves for 219 rows, more than any
/// smaller number does (bin find_tables: no call makes such a table).
const RATIO_4X4: u32 = 0x3_2b36;
pub const ROWS_4X4: usize = 219;

/// z^k modulo the polynomial, for k from 0 (request a of 02).
pub fn powers(count: usize, modulus: Polynomial) -> Vec<u32> {
    powers_from(1, count, modulus)
}

/// z^k times the first entry modulo the polynomial, for k from 0.
pub fn powers_from(first: u32, count: usize, modulus: Polynomial) -> Vec<u32> {
    let full = 1 << modulus.degree | u64::from(modulus.low);
    let mut entry = u64::from(first);
    let mut entries = Vec::with_capacity(count);
    for _ in 0..count {
        entries.push(entry as u32);
        entry <<= 1;
        if entry >> modulus.degree == 1 {
            entry ^= full;
        }
    }
    entries
}

/// The product of two elements of the field of 2^32 elements, as polynomials modulo the primitive
/// z^32 + z^22 + z^2 + z + 1.
fn field_product(a: u32, b: u32) -> u32 {
    let modulus = Polynomial { degree: 32, low: 0x0040_0007 };
    let shifted = (0..32).scan(a, |power, _| {
        let now = *power;
        *power = now << 1 ^ if now >> 31 == 1 { modulus.low } else { 0 };
        Some(now)
    });
    let chosen = shifted.enumerate().filter(|(bit, _)| b >> bit & 1 == 1);
    chosen.fold(0, |sum, (_, power)| sum ^ power)
}

/// A V table of 4 entries a row: row i is ratio^i times 1, g, g^2, g^3, with g of order 15. The
/// span of a row is then closed under the field of 16 elements, so that two windows are dependent
/// for about one pair in 15 only.
pub fn field_rows(rows: usize, ratio: u32) -> Vec<u32> {
    const G: u32 = 0x2b4a_e0f2; // z to the power (2^32 - 1) / 15
    let mut entries = Vec::with_capacity(4 * rows);
    let mut first = 1;
    for _ in 0..rows {
        let mut entry = first;
        for _ in 0..4 {
            entries.push(entry);
            entry = field_product(entry, G);
        }
        first = field_product(first, ratio);
    }
    entries
}

/// Where check cells are looked for: in sheet order, in random order, or in the odd rows first.
#[derive(Clone, Copy, Debug)]
pub enum CellOrder {
    Sheet,
    Scattered,
    OddRows,
}

impl Plan {
    /// Take check cells in the given order, each if its joint entry is no exclusive-or of those
    /// taken, until there are rv + rh; then list them in rising order. None if there are too few.
    pub fn with_checks(mut self, order: CellOrder, rng: &mut Rng) -> Option<Plan> {
        let (n1, n2) = (self.n1 as u16, self.n2 as u16);
        let mut cells: Vec<_> = (0..n1).flat_map(|i| (0..n2).map(move |j| (i, j))).collect();
        match order {
            CellOrder::Sheet => {}
            CellOrder::Scattered => rng.shuffle(&mut cells),
            CellOrder::OddRows => cells.sort_by_key(|&(i, _)| i % 2 == 0),
        }
        let mut taken = Span::default();
        self.checks.clear();
        for (i, j) in cells {
            if taken.add(self.joint(i.into(), j.into())) {
                self.checks.push((i, j));
            }
            if self.checks.len() == self.rv + self.rh {
                self.checks.sort();
                return Some(self);
            }
        }
        None
    }

    /// With check cells that are independent, or with the first cells if there are too few.
    pub fn with_any_checks(self, order: CellOrder, rng: &mut Rng) -> Plan {
        self.clone().with_checks(order, rng).unwrap_or_else(|| self.with_first_cells())
    }

    /// As many check cells as the widths want, or all there are: the first in sheet order, whether they serve or not.
    pub fn with_first_cells(self) -> Plan {
        let cells = (0..self.n1 as u16).flat_map(|i| (0..self.n2 as u16).map(move |j| (i, j)));
        Plan { checks: cells.take(self.rv + self.rh).collect(), ..self }
    }
}

/// A table and the width of its entries.
type Table = (usize, Vec<u32>);

/// The plan with bursts of b × b and these tables, b entries a row or column.
fn square(b: usize, (rv, v): Table, (rh, h): Table, order: CellOrder, rng: &mut Rng) -> Plan {
    let (n1, n2) = (v.len() / b, h.len() / b);
    let plan = Plan { n1, n2, b1: b, b2: b, t: 0, rv, rh, v, h, checks: Vec::new() };
    plan.with_checks(order, rng).expect("there are enough cells")
}

/// The accepted plan with bursts of one cell at full size.
pub fn powers_1x1(order: CellOrder, rng: &mut Rng) -> Plan {
    let table = |count| (SINGLE.degree, powers(count, SINGLE));
    square(1, table(512), table(698), order, rng)
}

/// The accepted plan with bursts of one cell and the fewest check cells on n1 rows, at most 512, and n2 columns,
/// at most 698: row i has the V entry i + 1, and column j the H entry j; but if there is one column alone, it
/// has 1. Sheets of 1 × 1 and of 2 × 1 cells have too few for it.
pub fn least_1x1(n1: usize, n2: usize, order: CellOrder, rng: &mut Rng) -> Plan {
    let table = |entries: Vec<u32>| {
        let widths = entries.iter().map(|entry| entry.checked_ilog2().unwrap_or(0) + 1);
        (widths.max().expect("there is an entry") as usize, entries)
    };
    let v = (1..=n1 as u32).collect();
    let h = if n2 == 1 { vec![1] } else { (0..n2 as u32).collect() };
    square(1, table(v), table(h), order, rng)
}

/// The accepted plan with 3 × 3 bursts on n1 rows, at most 512, and n2 columns, at most 698, with
/// the fewest check cells that tables of powers allow at full size.
pub fn powers_3x3(n1: usize, n2: usize, order: CellOrder, rng: &mut Rng) -> Plan {
    let v = (V_3X3.degree, powers(3 * n1, V_3X3));
    let h = (H_3X3.degree, powers(3 * n2, H_3X3));
    square(3, v, h, order, rng)
}

/// The same with the entries of each row, and of each column, in reversed order, and check cells
/// chosen anew. Windows have the same entries and strips the same members, so that the plan is
/// accepted too; but no entry is z times the one before.
pub fn reversed_3x3(n1: usize, n2: usize, order: CellOrder, rng: &mut Rng) -> Plan {
    let reversed =
        |table: Vec<u32>| table.chunks(3).flat_map(|of| of.iter().rev()).copied().collect();
    let v = (V_3X3.degree, reversed(powers(3 * n1, V_3X3)));
    let h = (H_3X3.degree, reversed(powers(3 * n2, H_3X3)));
    square(3, v, h, order, rng)
}

/// The accepted plan with 3 × 3 bursts at full size and the widest entries. One altered entry
/// makes few pairs dependent here.
pub fn wide_3x3(order: CellOrder, rng: &mut Rng) -> Plan {
    square(3, (32, powers(3 * 512, WIDE)), (32, powers(3 * 698, WIDE)), order, rng)
}

/// The accepted plan with 4 × 4 bursts that is the largest found.
pub fn largest_4x4(order: CellOrder, rng: &mut Rng) -> Plan {
    let v = (32, field_rows(ROWS_4X4, RATIO_4X4));
    let h = (H_4X4.degree, powers(4 * 698, H_4X4));
    square(4, v, h, order, rng)
}

/// The accepted plan of one row of two cells, both check cells: it holds no data.
pub fn no_data() -> Plan {
    let (v, h) = (vec![1], vec![0, 1]);
    Plan { n1: 1, n2: 2, b1: 1, b2: 1, t: 0, rv: 1, rh: 1, v, h, checks: vec![(0, 0), (0, 1)] }
}

/// Every size of burst that check 2 lets pass.
pub fn burst_sizes() -> impl Iterator<Item = (usize, usize)> {
    (1..=4).flat_map(|b1| (1..=4).map(move |b2| (b1, b2)))
}

/// A random accepted plan for bursts of b1 × b2, with at most `more` rows and columns beyond one
/// burst. Some have exactly b1 rows or b2 columns, and some of these have no data bits at all. Half of
/// them are for bursts of any cells, the others for such as have at most one cell, or two.
pub fn accepted(rng: &mut Rng, b1: usize, b2: usize, more: usize) -> Plan {
    let t = any_t(rng);
    accepted_with(rng, [b1, b2, t], more)
}

/// The same for bursts of at most t cells; of any, if t is 0.
pub fn accepted_with(rng: &mut Rng, [b1, b2, t]: [usize; 3], more: usize) -> Plan {
    loop {
        let shape = shape_about(rng, [b1, b2, t], more);
        if let Some(plan) = shape.and_then(|shape| accepted_in(rng, shape)) {
            return plan;
        }
    }
}

/// A random accepted plan for bursts of b1 × b2 on n1 rows and n2 columns, of any cells or of few. Not
/// every size has one: a sheet of just one burst's size has too few cells.
pub fn accepted_of(rng: &mut Rng, sizes: [usize; 4]) -> Plan {
    let t = any_t(rng);
    accepted_of_with(rng, sizes, t)
}

/// The same for bursts of at most t cells; of any, if t is 0.
pub fn accepted_of_with(rng: &mut Rng, sizes: [usize; 4], t: usize) -> Plan {
    let tried = (0..10_000).find_map(|_| {
        let shape = shape_of(rng, sizes, t)?;
        accepted_in(rng, shape)
    });
    tried.unwrap_or_else(|| panic!("no plan is found for {sizes:?} and {t} cells"))
}

/// 0 in half of the cases, or 1 or 2.
fn any_t(rng: &mut Rng) -> usize {
    rng.pick(&[0, 0, 1, 2])
}

/// The plan of this shape with random tables, if it is accepted.
fn accepted_in(rng: &mut Rng, shape: Plan) -> Option<Plan> {
    let order = rng.pick(&[CellOrder::Sheet, CellOrder::Scattered]);
    let plan = with_random_tables(rng, shape).with_checks(order, rng)?;
    (!model::test_plan(&plan.encode()).is_refusal()).then_some(plan)
}

/// Sizes under which a plan can be accepted, tables and check list left empty.
pub fn random_shape(rng: &mut Rng, b1: usize, b2: usize, more: usize) -> Option<Plan> {
    let t = any_t(rng);
    shape_about(rng, [b1, b2, t], more)
}

fn shape_about(rng: &mut Rng, [b1, b2, t]: [usize; 3], more: usize) -> Option<Plan> {
    let mut size = |b: usize| if rng.one_in(6) { b } else { rng.within(b, b + more) };
    let (n1, n2) = (size(b1), size(b2));
    shape_of(rng, [n1, n2, b1, b2], t)
}

/// Widths of the entries under which a plan of these sizes can be accepted, tables and check list left empty.
fn shape_of(rng: &mut Rng, [n1, n2, b1, b2]: [usize; 4], t: usize) -> Option<Plan> {
    let (least_rv, least_rh) = low_widths([n1, n2, b1, b2], t);
    let rank = most_checks(n1, n2, b1, b2);
    let most_rv = 32.min(n1 * b2).min(rank.checked_sub(least_rh)?);
    if most_rv < least_rv {
        return None;
    }
    let rv = width(rng, least_rv, most_rv);
    let most_rh = 32.min(n2 * b1).min(rank - rv);
    let no_data = n1 * n2 == rank && rank - rv == most_rh && rng.one_in(3);
    let rh = if no_data { most_rh } else { width(rng, least_rh, most_rh) };
    Some(Plan { n1, n2, b1, b2, t, rv, rh, v: Vec::new(), h: Vec::new(), checks: Vec::new() })
}

/// An rv and an rh about which random tables begin to be accepted: the least for bursts of any cells; for
/// such as have few, what the number of sums asks that must differ from each other, or from 0.
pub fn low_widths([n1, n2, b1, b2]: [usize; 4], t: usize) -> (usize, usize) {
    let (least_rv, least_rh) = least_widths(n1, n2, b1, b2);
    if t == 0 {
        return (least_rv, least_rh);
    }
    let bits = |count: usize| count.checked_ilog2().map_or(0, |log| log as usize + 1);
    // Entries; and pairs of them in one window, in one row or in two.
    let other_rows: usize = (1..b1).map(|apart| (n1 - apart) * b2 * b2).sum();
    let pairs = if t == 1 { 0 } else { n1 * b2 * (b2 - 1) / 2 + other_rows };
    let sets = bits(n1 * b2 + pairs);
    // Members, one for two columns of the same remainder and each r; and pairs of them.
    let of_remainder = n2.div_ceil(b2);
    let members = b1 * b2 * of_remainder * (of_remainder - 1) / 2;
    let of_members = if t == 1 { members } else { members * (1 + b1 * b2 / 2) };
    (least_rv.min(sets + sets / 3), least_rh.min(bits(of_members).saturating_sub(2).max(1)))
}

/// The least rv and rh under which a plan for bursts of any cells can be accepted: as many as two windows
/// have entries, and two strips members.
pub fn least_widths(n1: usize, n2: usize, b1: usize, b2: usize) -> (usize, usize) {
    ((2 * b1).min(n1) * b2, (b2.min(n2 - b2) * b1).max(1))
}

/// The most that check cells can span. Cells with the same two remainders, i modulo b1 and j modulo
/// b2, share their entries with no others, and span at most one dimension less than they have
/// entries in the two tables: b1 × b2 times in all.
pub fn most_checks(n1: usize, n2: usize, b1: usize, b2: usize) -> usize {
    n1 * b2 + n2 * b1 - b1 * b2
}

/// A width from `least` to `most`: mostly near the least, one time in six the most.
fn width(rng: &mut Rng, least: usize, most: usize) -> usize {
    if rng.one_in(6) {
        most
    } else {
        rng.within(least, most.min(least + 8))
    }
}

/// Each table random, or of powers modulo a random polynomial with constant term 1.
fn with_random_tables(rng: &mut Rng, shape: Plan) -> Plan {
    let mut table = |count: usize, width: usize| {
        if rng.one_in(2) {
            powers(count, Polynomial { degree: width, low: rng.bits(width) | 1 })
        } else {
            (0..count).map(|_| rng.bits(width)).collect()
        }
    };
    let v = table(shape.n1 * shape.b2, shape.rv);
    let h = table(shape.n2 * shape.b1, shape.rh);
    Plan { v, h, ..shape }
}

/// Plans of sizes about multiples of 8, thin ones, such as have several bytes in rows or in columns, and
/// such as are for bursts of few cells.
pub fn plans_of_many_sizes(rng: &mut Rng) -> Vec<Plan> {
    let sizes = [
        (1, 2),
        (1, 23),
        (3, 1),
        (23, 1),
        (7, 8),
        (8, 7),
        (8, 16),
        (16, 8),
        (9, 15),
        (15, 9),
        (17, 64),
        (64, 17),
        (65, 31),
        (31, 65),
    ];
    let order = CellOrder::Scattered;
    let mut plans = vec![plan_s(), plan_t(), plan_two_rows(), plan_tall(), no_data()];
    plans.extend(sizes.map(|(n1, n2)| least_1x1(n1, n2, order, rng)));
    plans.extend([powers_3x3(20, 13, order, rng), powers_3x3(13, 20, order, rng)]);
    plans.extend([few_of_4x4([20, 13], 1, order, rng), few_of_4x4([13, 20], 2, order, rng)]);
    plans
}

//! Plans with something wrong: most are refused, a few are still accepted. Other buffers with a wrong
//! length or an unused bit that is 1.

use crate::model::Layout;
use crate::plan::{field, header_field, set_header_field, Plan, HEADER_LEN};
use crate::rng::Rng;

/// The bytes of a plan, damaged in its tables, its check list, its bytes, or more than one of them.
pub fn damaged(plan: &Plan, rng: &mut Rng) -> Vec<u8> {
    const TABLES: u8 = 1;
    const CHECKS: u8 = 2;
    const BYTES: u8 = 4;
    let one = rng.pick(&[TABLES, CHECKS, BYTES]);
    let kinds = if rng.one_in(5) { one | rng.pick(&[TABLES, CHECKS, BYTES]) } else { one };
    let mut plan = plan.clone();
    if kinds & TABLES != 0 {
        damage_tables(&mut plan, rng);
    }
    if kinds & CHECKS != 0 {
        damage_checks(&mut plan, rng);
    }
    let mut bytes = plan.encode();
    if kinds & BYTES != 0 {
        damage_bytes(&mut bytes, rng);
    }
    bytes
}

/// One entry of one table altered.
fn damage_tables(plan: &mut Plan, rng: &mut Rng) {
    let (table, width) =
        if rng.one_in(2) { (&mut plan.v, plan.rv) } else { (&mut plan.h, plan.rh) };
    let [at, other, third] = [(); 3].map(|()| rng.below(table.len()));
    match rng.below(7) {
        0 => table.swap(at, other),
        1 => table[at] = table[other],
        2 => table[at] = table[other] ^ table[third],
        3 => table[at] ^= 1 << rng.below(width),
        4 => table[at] = 0,
        // Too large, by one bit or by many, if the width leaves room for it.
        5 if width < 32 => table[at] |= 1 << rng.within(width, 31),
        6 if width < 32 => table[at] = rng.bits(32) | 1 << width,
        _ => table[at] = rng.bits(width),
    }
}

/// The check list: its order, a cell off the sheet, or other cells in good order.
fn damage_checks(plan: &mut Plan, rng: &mut Rng) {
    let (n1, n2) = (plan.n1 as u16, plan.n2 as u16);
    let mut any_cell = || (rng.below(n1.into()) as u16, rng.below(n2.into()) as u16);
    let cell = any_cell();
    let others: Vec<_> = plan.checks.iter().map(|_| any_cell()).collect();
    let checks = &mut plan.checks;
    let [at, other] = [(); 2].map(|()| rng.below(checks.len()));
    match rng.below(10) {
        0 => checks.swap(at, other),
        1 => checks.swap(at, at.saturating_sub(1)),
        2 => checks[at] = checks[other],
        3 => checks[at].0 = rng.pick(&[n1, n1 + 1, u16::MAX]),
        4 => checks[at].1 = rng.pick(&[n2, n2 + 1, u16::MAX]),
        5 => checks.reverse(),
        6 => checks[at] = cell,
        // One cell, half of them or all of them replaced, and the list put in order again.
        kind => {
            let replaced = [1, checks.len() / 2, checks.len()][kind - 7];
            checks[..replaced].copy_from_slice(&others[..replaced]);
            checks.sort();
            checks.dedup();
            fill_up(checks, n1, n2, plan.rv + plan.rh);
        }
    }
}

/// Add the first cells of the sheet that are not yet listed, until there are `count` of them.
fn fill_up(checks: &mut Vec<(u16, u16)>, n1: u16, n2: u16, count: usize) {
    for cell in (0..n1).flat_map(|i| (0..n2).map(move |j| (i, j))) {
        if checks.len() == count {
            return;
        }
        if let Err(place) = checks.binary_search(&cell) {
            checks.insert(place, cell);
        }
    }
}

/// The length, the header, or any bits.
fn damage_bytes(bytes: &mut Vec<u8>, rng: &mut Rng) {
    match rng.below(9) {
        0 => bytes.truncate(rng.below(bytes.len())),
        1 => bytes.truncate(rng.below(HEADER_LEN)),
        2 => {
            let more = rng.within(1, 8);
            bytes.extend(rng.bytes(more));
        }
        3 => {
            for _ in 0..rng.within(1, 3) {
                let at = rng.below(bytes.len());
                bytes[at] ^= 1 << rng.below(8);
            }
        }
        4 | 5 => damage_t(bytes, rng),
        _ => damage_header(bytes, rng),
    }
}

/// Another t: in its limits, or beyond them, also such that its low byte would be good.
fn damage_t(bytes: &mut [u8], rng: &mut Rng) {
    let beyond = [3, 4, 5, 255, 256, 257, 258, 1 << 15, u16::MAX, rng.bits(16) as u16];
    let t = if rng.one_in(2) { rng.below(3) as u16 } else { rng.pick(&beyond) };
    set_header_field(bytes, field::T, t);
}

/// A number of the header at, just within or just beyond its limits, or off by a little.
fn damage_header(bytes: &mut [u8], rng: &mut Rng) {
    let place = rng.within(field::N1, field::LENGTH);
    let value = header_field(bytes, place);
    let least = match place {
        field::N1 => header_field(bytes, field::B1),
        field::N2 => header_field(bytes, field::B2),
        _ => 1,
    };
    let near = match place {
        field::N1 => [0, least - 1, least, 512, 513],
        field::N2 => [0, least - 1, least, 698, 699],
        field::B1 | field::B2 => [0, 1, 4, 5, 0x0104],
        field::RV | field::RH => [0, 1, 32, 33, 0x0110],
        _ => [value - 1, value + 1, value - 4, value + 4, value ^ 0x0100],
    };
    let any = [u16::MAX, 0, rng.bits(16) as u16];
    let value = if rng.one_in(5) { rng.pick(&any) } else { rng.pick(&near) };
    set_header_field(bytes, place, value);
}

/// One byte or a few more or fewer, or none at all.
pub fn alter_length(buffer: &mut Vec<u8>, rng: &mut Rng) {
    match rng.below(3) {
        0 => buffer.truncate(buffer.len().saturating_sub(rng.within(1, 3))),
        1 => buffer.clear(),
        _ => buffer.resize(buffer.len() + rng.within(1, 3), 0),
    }
}

/// Set an unused bit of the data, if there is any.
pub fn set_unused_of_data(plan: &Plan, data: &mut [u8], rng: &mut Rng) {
    let unused = 8 * plan.data_len() - plan.data_bits();
    if unused > 0 {
        data[plan.data_len() - 1] |= 0x80 >> rng.below(unused);
    }
}

/// Set an unused bit of some row of the sheet, if there is any.
pub fn set_unused_of_sheet(plan: &Plan, sheet: &mut [u8], rng: &mut Rng) {
    set_unused_in(Layout::Rows, plan, sheet, rng);
}

/// Set an unused bit of some line of the sheet in this layout, if there is any.
pub fn set_unused_in(layout: Layout, plan: &Plan, sheet: &mut [u8], rng: &mut Rng) {
    let unused = layout.unused_bits(plan).count_ones() as usize;
    if unused > 0 {
        let line_end = rng.within(1, layout.lines(plan)) * layout.line_len(plan) - 1;
        sheet[line_end] |= 0x80 >> rng.below(unused);
    }
}

//! Writing, reading and summing beyond the plan test, in plain Rust: one pass over the cells, row by row,
//! with the remainders counted along. Writing and reading are shared by both layouts.

use std::ops::Range;

use super::sparse::positions_with;
use crate::answer::Answer;
use crate::model::{check_summing, smallest_rectangle, solve, Cell, Layout, Sums};
use crate::plan::Plan;

/// Write under an accepted plan, with buffers of the right length and unused bits 0.
pub fn write_accepted(plan: &Plan, data: &[u8], sheet: &mut [u8]) {
    write_by(plan, data, sheet, |at| Layout::Rows.place(plan, at), whole);
}

/// Write a sheet of which each cell has this byte and bit, and which is summed in this way.
pub(super) fn write_by(
    plan: &Plan,
    data: &[u8],
    sheet: &mut [u8],
    place: impl Fn(Cell) -> (usize, usize),
    sums: impl Fn(&Plan, &[u8]) -> Sums,
) {
    sheet.fill(0);
    let mut bit = 0;
    each_data_cell(plan, |at| {
        let (byte, shift) = place(at);
        sheet[byte] |= (data[bit / 8] >> (bit % 8) & 1) << shift;
        bit += 1;
    });
    for at in checks_with(plan, joint(plan, sums(plan, sheet))) {
        let (byte, shift) = place(at);
        sheet[byte] |= 1 << shift;
    }
}

/// The two sums of a sheet by rows.
pub(super) fn whole(plan: &Plan, sheet: &[u8]) -> Sums {
    sums(plan, sheet, 0..plan.n1)
}

/// Two sums as one number, V + 2^rv × H.
fn joint(plan: &Plan, (v, h): Sums) -> u64 {
    u64::from(v) | u64::from(h) << plan.rv
}

/// The two sums of a sheet by rows as one number.
pub(super) fn joint_sum(plan: &Plan, sheet: &[u8]) -> u64 {
    joint(plan, whole(plan, sheet))
}

/// The check cells whose joint entries come to this sum.
pub(super) fn checks_with(plan: &Plan, sum: u64) -> impl Iterator<Item = Cell> + '_ {
    let checks = plan.checks.iter().map(|&(i, j)| (usize::from(i), usize::from(j)));
    let entries = checks.clone().map(|(i, j)| plan.joint(i, j));
    let taken = solve(entries, sum).expect("the check cells of an accepted plan span");
    checks.enumerate().filter(move |(index, _)| taken >> index & 1 == 1).map(|(_, cell)| cell)
}

/// Read under an accepted plan, with buffers of the right length and unused bits 0.
pub fn read_accepted(plan: &Plan, sheet: &mut [u8], data: &mut [u8]) -> Answer {
    read_by(plan, sheet, data, |at| Layout::Rows.place(plan, at), whole)
}

/// Read a sheet of which each cell has this byte and bit, and which is summed in this way.
pub(super) fn read_by(
    plan: &Plan,
    sheet: &mut [u8],
    data: &mut [u8],
    place: impl Fn(Cell) -> (usize, usize),
    sums: impl Fn(&Plan, &[u8]) -> Sums,
) -> Answer {
    let found = burst(plan, sums(plan, sheet));
    mend_by(plan, sheet, data, place, found)
}

/// Turn over the burst that was found, in a sheet of which each cell has this byte and bit, and take the data out.
pub(super) fn mend_by(
    plan: &Plan,
    sheet: &mut [u8],
    data: &mut [u8],
    place: impl Fn(Cell) -> (usize, usize),
    found: Option<Vec<Cell>>,
) -> Answer {
    let Some(burst) = found else {
        return Answer::refusal(14, 0, 0);
    };
    for &at in &burst {
        let (byte, shift) = place(at);
        sheet[byte] ^= 1 << shift;
    }
    data.fill(0);
    let mut bit = 0;
    each_data_cell(plan, |at| {
        let (byte, shift) = place(at);
        data[bit / 8] |= (sheet[byte] >> shift & 1) << (bit % 8);
        bit += 1;
    });
    smallest_rectangle(&burst)
}

/// Sum a run under an accepted plan: checks 11, 13 and 24, then the rows of the run alone.
pub fn sum_accepted(
    plan: &Plan,
    sheet: &[u8],
    run: Range<u32>,
    into: &mut [u8],
) -> Result<(), Answer> {
    check_summing(plan, sheet, into)?;
    let (v, h) = sums(plan, sheet, run.start as usize..run.end as usize);
    into[..4].copy_from_slice(&v.to_le_bytes());
    into[4..].copy_from_slice(&h.to_le_bytes());
    Ok(())
}

/// Each cell that is not a check cell, in the order of the data.
fn each_data_cell(plan: &Plan, mut visit: impl FnMut(Cell)) {
    let mut left = &plan.checks[..];
    for i in 0..plan.n1 {
        let (row, rest) = left.split_at(left.partition_point(|&(row, _)| usize::from(row) == i));
        left = rest;
        let checks = row.iter().map(|&(_, j)| usize::from(j));
        let at = |j| visit((i, j));
        if i % 2 == 0 {
            each_other(0..plan.n2, checks, at);
        } else {
            each_other((0..plan.n2).rev(), checks.rev(), at);
        }
    }
}

/// Each column that is not the next check cell's.
fn each_other(
    columns: impl Iterator<Item = usize>,
    checks: impl Iterator<Item = usize>,
    mut visit: impl FnMut(usize),
) {
    let mut checks = checks.peekable();
    for j in columns {
        if checks.next_if_eq(&j).is_none() {
            visit(j);
        }
    }
}

/// The V sum and the H sum of a run of rows.
fn sums(plan: &Plan, sheet: &[u8], run: Range<usize>) -> Sums {
    let (mut v_sum, mut h_sum) = (0, 0);
    let rows = sheet.chunks(plan.row_len()).enumerate();
    for (i, row) in rows.take(run.end).skip(run.start) {
        let v = &plan.v[i * plan.b2..(i + 1) * plan.b2];
        let h = plan.h[i % plan.b1..].iter().step_by(plan.b1);
        for ((j, &h), &v) in h.enumerate().zip(v.iter().cycle()) {
            let dark = u32::from(row[j / 8] >> (j % 8) & 1).wrapping_neg();
            v_sum ^= v & dark;
            h_sum ^= h & dark;
        }
    }
    (v_sum, h_sum)
}

/// The burst that fits: a window's pattern from the V sum, then its place from the H sum.
fn burst(plan: &Plan, (v_sum, h_sum): Sums) -> Option<Vec<Cell>> {
    let (b1, b2) = (plan.b1, plan.b2);
    if v_sum == 0 {
        return (h_sum == 0).then(Vec::new);
    }
    if plan.t != 0 {
        return burst_of_few(plan, (v_sum, h_sum));
    }
    for top in 0..=plan.n1 - b1 {
        let entries = &plan.v[top * b2..(top + b1) * b2];
        let Some(pattern) = solve(entries.iter().map(|&entry| entry.into()), v_sum.into()) else {
            continue;
        };
        for left in 0..=plan.n2 - b2 {
            let rectangle = (top..top + b1).flat_map(|i| (left..left + b2).map(move |j| (i, j)));
            let inside = |&(i, j): &Cell| pattern >> ((i - top) * b2 + j % b2) & 1 == 1;
            let laid = rectangle.filter(inside);
            if laid.clone().fold(0, |sum, (i, j)| sum ^ plan.h_entry(i, j)) == h_sum {
                return Some(laid.collect());
            }
        }
    }
    None
}

/// The same where a burst has few cells: one set of rows and remainders has the V sum, and it is laid on
/// each strip.
fn burst_of_few(plan: &Plan, (v_sum, h_sum): Sums) -> Option<Vec<Cell>> {
    let positions = positions_with(plan, v_sum)?;
    let cell =
        |left: usize, (i, m): (usize, usize)| (i, left + (m + plan.b2 - left % plan.b2) % plan.b2);
    let h_of = |left: usize| {
        let laid = positions.iter().map(|&at| cell(left, at));
        laid.fold(0, |sum, (i, j)| sum ^ plan.h_entry(i, j))
    };
    let left = (0..=plan.n2 - plan.b2).find(|&left| h_of(left) == h_sum)?;
    Some(positions.iter().map(|&at| cell(left, at)).collect())
}

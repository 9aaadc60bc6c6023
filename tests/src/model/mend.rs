//! The burst that fits a sheet: by the definition, and faster.

use super::algebra::solve;
use super::sheet::{syndrome, Cell};
use crate::answer::Answer;
use crate::plan::Plan;

/// The first burst that fits, by trial: each rectangle in sheet order, each pattern of a burst in it. Turning
/// cells over changes the syndrome by the exclusive-or of their joint entries.
pub fn burst_by_trial(plan: &Plan, sheet: &[u8]) -> Option<Vec<Cell>> {
    let target = syndrome(plan, sheet);
    for top in 0..=plan.n1 - plan.b1 {
        for left in 0..=plan.n2 - plan.b2 {
            let rows = top..top + plan.b1;
            let cells: Vec<Cell> =
                rows.flat_map(|i| (left..left + plan.b2).map(move |j| (i, j))).collect();
            let entries: Vec<u64> = cells.iter().map(|&(i, j)| plan.joint(i, j)).collect();
            let mut change = vec![0u64; 1 << cells.len()];
            for pattern in 0..change.len() {
                if pattern != 0 {
                    let one = pattern.trailing_zeros() as usize;
                    change[pattern] = change[pattern & (pattern - 1)] ^ entries[one];
                }
                let few = pattern.count_ones() as usize <= plan.most_cells();
                if few && change[pattern] == target {
                    let inside = |index: &usize| pattern >> index & 1 == 1;
                    return Some(
                        (0..cells.len()).filter(inside).map(|index| cells[index]).collect(),
                    );
                }
            }
        }
    }
    None
}

/// The burst that fits, under an accepted plan: at most one does. In a window of b1 rows at most
/// one pattern of a burst, of rows and remainders modulo b2, has the V sum; it is laid on each strip of
/// columns and its H sum compared.
pub fn burst_by_search(plan: &Plan, sheet: &[u8]) -> Option<Vec<Cell>> {
    let target = syndrome(plan, sheet);
    let v_target = target & ((1 << plan.rv) - 1);
    let h_target = (target >> plan.rv) as u32;
    for top in 0..=plan.n1 - plan.b1 {
        let entries = &plan.v[top * plan.b2..(top + plan.b1) * plan.b2];
        let Some(pattern) = pattern_with(plan, entries, v_target) else {
            continue;
        };
        for left in 0..=plan.n2 - plan.b2 {
            let laid = lay(plan, pattern, top, left);
            let h_sum = laid.iter().fold(0, |sum, &(i, j)| sum ^ plan.h_entry(i, j));
            if h_sum == h_target {
                return Some(laid);
            }
        }
    }
    None
}

/// The pattern of a burst whose entries, of those of one window, have this sum: with few cells, by trial.
fn pattern_with(plan: &Plan, entries: &[u32], sum: u64) -> Option<u64> {
    let entries = entries.iter().map(|&entry| u64::from(entry));
    if plan.t == 0 {
        return solve(entries, sum);
    }
    let all: Vec<_> = entries.enumerate().map(|(at, entry)| (1u64 << at, entry)).collect();
    let one = all.iter().copied();
    let two = all.iter().enumerate().flat_map(|(after, (one, entry))| {
        all[..after].iter().map(move |(other, more)| (one | other, entry ^ more))
    });
    let patterns = [(0, 0)].into_iter().chain(one).chain(two);
    let mut few =
        patterns.filter(|(pattern, _)| pattern.count_ones() as usize <= plan.most_cells());
    few.find(|&(_, of_pattern)| of_pattern == sum).map(|(pattern, _)| pattern)
}

/// The cells of a pattern on the rectangle at (top, left), in sheet order. Position r × b2 + m of
/// the pattern is row top + r and the column of the strip that has remainder m modulo b2.
fn lay(plan: &Plan, pattern: u64, top: usize, left: usize) -> Vec<Cell> {
    let mut cells = Vec::new();
    for r in 0..plan.b1 {
        for column in left..left + plan.b2 {
            if pattern >> (r * plan.b2 + column % plan.b2) & 1 == 1 {
                cells.push((top + r, column));
            }
        }
    }
    cells
}

/// The answer of a read that turned these cells over: their number, the smallest rectangle that holds
/// them, and the pattern that they have in it; six zeros if there are none.
pub fn smallest_rectangle(cells: &[Cell]) -> Answer {
    let rows = cells.iter().map(|cell| cell.0 as u64);
    let columns = cells.iter().map(|cell| cell.1 as u64);
    let (Some(top), Some(left)) = (rows.clone().min(), columns.clone().min()) else {
        return Answer::default();
    };
    let height = rows.max().unwrap_or(top) - top + 1;
    let width = columns.max().unwrap_or(left) - left + 1;
    // The cell at row r and column s of the rectangle has bit r × width + s.
    let bit = |&(i, j): &Cell| 1 << ((i as u64 - top) * width + (j as u64 - left));
    let pattern = cells.iter().map(bit).fold(0, |pattern, bit: u64| pattern | bit);
    Answer::of_mended([cells.len() as u64, top, left, height, width, pattern])
}

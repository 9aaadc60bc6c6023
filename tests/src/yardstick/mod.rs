//! What the library's speed is measured against: the same work in Rust, for the timings of bin
//! bench alone. The tests compare it with the model.

mod alter;
mod best;
mod columns;
mod maker;
mod plain;
mod put;
mod sheets;
mod sparse;
mod stack;
mod trial;
mod two;

pub use alter::alter_accepted;
pub use columns::{read_by_column_accepted, turn_accepted, write_by_column_accepted};
pub use put::put_back_accepted;
pub use sheets::{read_accepted, sum_accepted, write_accepted};
pub use sparse::{
    first_row_of_strips as sparse_first_strips, first_row_of_windows as sparse_first_windows,
};
pub use stack::read_stack_accepted;
pub use trial::read_by_trial_accepted;
pub use two::{first_difference_accepted, read_two_accepted};

use std::ops::Range;

use crate::answer::{Answer, Places};
use crate::given::Given;
use crate::model::{accept_by, Layout};
use crate::plan::Plan;

/// The plan test in plain Rust: the first window's basis is built once for each i, and the second
/// window's vectors are added for each pair.
pub fn plain_plan_test(bytes: &[u8]) -> u64 {
    packed(bytes, plain::windows, plain::strips)
}

/// The plan test in the best scalar Rust we could write that needs no more room than a copy of one
/// table.
pub fn best_plan_test(bytes: &[u8]) -> u64 {
    packed(bytes, best::windows, best::strips)
}

/// The test of a plan whose bursts have few cells, in plain Rust that knows a table of powers by its look.
pub fn sparse_plan_test(bytes: &[u8]) -> u64 {
    packed(bytes, sparse::windows_by_look, sparse::strips_by_look)
}

fn packed(bytes: &[u8], windows: fn(&Plan) -> Places, strips: fn(&Plan) -> Places) -> u64 {
    told(accept_by(bytes, windows, strips))
}

/// Making a plan in plain Rust that tests all pairs, as the plain plan test does.
pub fn plain_plan_make(given: &Given, plan: &mut [u8]) -> u64 {
    told(maker::make(given, plan, plain::windows, plain::strips))
}

/// The same with one row of pairs for each table, which is enough for a table of powers.
pub fn one_row_plan_make(given: &Given, plan: &mut [u8]) -> u64 {
    told(maker::make(given, plan, plain::first_row_of_windows, plain::first_row_of_strips))
}

/// The sums of a run in plain Rust: the plain plan test, the checks of the buffers, and the rows of the run.
pub fn plain_sums(plan: &[u8], sheet: &[u8], run: Range<u32>, into: &mut [u8]) -> u64 {
    let plan = accept_by(plan, plain::windows, plain::strips);
    told(plan.and_then(|plan| sum_accepted(&plan, sheet, run, into)))
}

/// Altering one data bit in plain Rust, in the library's way: the plain plan test, the checks of the sheet,
/// and the cells that one alteration turns over.
pub fn plain_alter(plan: &[u8], sheet: &mut [u8], position: u32) -> u64 {
    let plan = accept_by(plan, plain::windows, plain::strips);
    told(plan.and_then(|plan| alter_accepted(&plan, sheet, position)))
}

/// Putting a burst back in plain Rust: the plain plan test, the checks of the sheet and of the answer, and its cells.
pub fn plain_put_back(plan: &[u8], sheet: &mut [u8], answer: u64) -> u64 {
    let plan = accept_by(plan, plain::windows, plain::strips);
    told(plan.and_then(|plan| put_back_accepted(&plan, sheet, answer)))
}

/// Reading two scans in plain Rust: the plain plan test, the checks of the buffers, and each scan as one.
pub fn plain_read_two(plan: &[u8], first: &[u8], second: &[u8], data: &mut [u8]) -> u64 {
    let plan = accept_by(plan, plain::windows, plain::strips);
    told(plan.and_then(|plan| read_two_accepted(&plan, first, second, data)))
}

/// Where two scans first differ in plain Rust: the plain plan test, the checks of the scans, and their rows.
pub fn plain_first_difference(plan: &[u8], first: &[u8], second: &[u8]) -> Range<usize> {
    let plan = accept_by(plan, plain::windows, plain::strips);
    plan.map_or(0..0, |plan| first_difference_accepted(&plan, first, second))
}

/// Reading a stack in plain Rust: the plain plan test once, the checks of the buffers, and each sheet.
pub fn plain_read_stack(plan: &[u8], stack: &mut [u8], numbers: &mut [u8], data: &mut [u8]) -> u64 {
    let plan = accept_by(plan, plain::windows, plain::strips);
    told(plan.and_then(|plan| read_stack_accepted(&plan, stack, numbers, data)))
}

/// Writing a sheet by columns in plain Rust: the plain plan test, the checks of the buffers, and the sheet.
pub fn plain_write_by_column(plan: &[u8], data: &[u8], sheet: &mut [u8]) -> u64 {
    let plan = accept_by(plan, plain::windows, plain::strips);
    told(plan.and_then(|plan| write_by_column_accepted(&plan, data, sheet)))
}

/// Reading a sheet by columns in plain Rust: the plain plan test, the checks of the buffers, and the sheet.
pub fn plain_read_by_column(plan: &[u8], sheet: &mut [u8], data: &mut [u8]) -> u64 {
    match accept_by(plan, plain::windows, plain::strips) {
        Ok(plan) => read_by_column_accepted(&plan, sheet, data).pack(),
        Err(refusal) => refusal.pack(),
    }
}

/// Reading a sheet by trial in plain Rust: the plain plan test, the checks of the buffers, and the trial.
pub fn plain_read_by_trial(plan: &[u8], sheet: &mut [u8], data: &mut [u8]) -> u64 {
    match accept_by(plan, plain::windows, plain::strips) {
        Ok(plan) => read_by_trial_accepted(&plan, sheet, data).pack(),
        Err(refusal) => refusal.pack(),
    }
}

/// Turning a sheet in plain Rust: the plain plan test, the checks of the buffers, and each cell.
pub fn plain_turn(from: Layout, plan: &[u8], source: &[u8], target: &mut [u8]) -> u64 {
    let plan = accept_by(plan, plain::windows, plain::strips);
    told(plan.and_then(|plan| turn_accepted(from, &plan, source, target)))
}

fn told<T>(outcome: Result<T, Answer>) -> u64 {
    outcome.err().unwrap_or_default().pack()
}

/// A set of vectors, each at the place of its highest bit.
#[derive(Clone, Copy)]
struct Basis([u32; 32]);

impl Basis {
    const EMPTY: Basis = Basis([0; 32]);

    /// Add a vector; false if it is an exclusive-or of those added before.
    fn add(&mut self, mut vector: u32) -> bool {
        while vector != 0 {
            let place = &mut self.0[31 - vector.leading_zeros() as usize];
            if *place == 0 {
                *place = vector;
                return true;
            }
            vector ^= *place;
        }
        false
    }
}

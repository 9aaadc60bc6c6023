//! The sixteen calls, by the words of documents 01 and 02 (requests a, c to k and m) and with no eye to speed
//! beyond what full-size sheets ask for.

mod accept;
mod algebra;
mod alter;
mod buffers;
mod columns;
mod layout;
mod maker;
mod mend;
mod put;
mod run;
mod sheet;
mod sparse;
mod stack;
mod trial;
mod two;

pub use accept::{accept, accept_by, strip_members, test_plan, window_entries};
pub use algebra::{independent, solve, Span};
pub use alter::{altered_data, altered_sheet};
pub use buffers::{
    check_altering_by, check_comparing, check_reading, check_reading_stack, check_reading_two,
    check_sheet, check_summing, check_turning, check_writing,
};
pub use columns::{
    read_by_column, read_by_column_accepted, turn, turn_accepted, write_by_column,
    write_by_column_accepted,
};
pub use layout::{by_columns, by_rows, Layout};
pub use maker::{made_plan, power};
pub use mend::{burst_by_search, burst_by_trial, smallest_rectangle};
pub use put::{cells_told, faults, put_back, put_back_accepted, Fault, FAULTS};
pub use run::{run_sums, Sums};
pub use sheet::{
    cell, cells, data_cells, data_of, syndrome, turn_over, unused_bits, write_sheet, Cell,
};
pub use stack::{sheet_places, NUMBERS_LEN};
pub use trial::{burst_tried, read_by_trial, read_by_trial_accepted};
pub use two::{data_of_two, differing_row, mended_data};

use std::ops::Range;

use buffers::check_altering;
use stack::read_each;

use crate::answer::Answer;
use crate::given::{Given, HOUSE};
use crate::plan::Plan;

/// Make a plan. A refusal changes nothing.
pub fn make(given: &Given, plan: &mut [u8]) -> Answer {
    match made_plan(given, plan.len()) {
        Ok(made) => {
            plan.copy_from_slice(&made.encode());
            Answer::default()
        }
        Err(refusal) => refusal,
    }
}

/// Make the house plan: what the maker makes from the house numbers. Their sizes are good, so that a
/// buffer of another length is turned back with 5.
pub fn house_plan(plan: &mut [u8]) -> Answer {
    make(&HOUSE, plan)
}

/// Write the sheet of `data`. A refusal changes nothing.
pub fn write(plan: &[u8], data: &[u8], sheet: &mut [u8]) -> Answer {
    match accept(plan) {
        Ok(plan) => write_accepted(&plan, data, sheet),
        Err(refusal) => refusal,
    }
}

/// `write` under a plan that is known to be accepted: checks 11 to 13.
pub fn write_accepted(plan: &Plan, data: &[u8], sheet: &mut [u8]) -> Answer {
    if let Err(refusal) = check_writing(Layout::Rows, plan, data, sheet) {
        return refusal;
    }
    sheet.copy_from_slice(&write_sheet(plan, data));
    Answer::default()
}

/// Read a sheet: mend it and take its data out. A refusal changes nothing.
pub fn read(plan: &[u8], sheet: &mut [u8], data: &mut [u8]) -> Answer {
    match accept(plan) {
        Ok(plan) => read_accepted(&plan, sheet, data),
        Err(refusal) => refusal,
    }
}

/// `read` under a plan that is known to be accepted: checks 11 to 14.
pub fn read_accepted(plan: &Plan, sheet: &mut [u8], data: &mut [u8]) -> Answer {
    if let Err(refusal) = check_reading(Layout::Rows, plan, sheet, data) {
        return refusal;
    }
    read_with(plan, burst_by_search(plan, sheet), sheet, data)
}

/// Turn the burst over that was found and take the data out: the answer of a read. With none it is check 14.
fn read_with(plan: &Plan, found: Option<Vec<Cell>>, sheet: &mut [u8], data: &mut [u8]) -> Answer {
    let Some(burst) = found else {
        return Answer::refusal(14, 0, 0);
    };
    for &at in &burst {
        turn_over(plan, sheet, at);
    }
    data.copy_from_slice(&data_of(plan, sheet));
    smallest_rectangle(&burst)
}

/// The sums of a run of rows. A refusal changes nothing.
pub fn sums(plan: &[u8], sheet: &[u8], run: Range<u32>, sums: &mut [u8]) -> Answer {
    match accept(plan) {
        Ok(plan) => sums_accepted(&plan, sheet, run, sums),
        Err(refusal) => refusal,
    }
}

/// `sums` under a plan that is known to be accepted: checks 11, 13 and 24.
pub fn sums_accepted(plan: &Plan, sheet: &[u8], run: Range<u32>, sums: &mut [u8]) -> Answer {
    if let Err(refusal) = check_summing(plan, sheet, sums) {
        return refusal;
    }
    let (v, h) = run_sums(plan, sheet, run);
    sums[..4].copy_from_slice(&v.to_le_bytes());
    sums[4..].copy_from_slice(&h.to_le_bytes());
    Answer::default()
}

/// Alter one data bit of a sheet that belongs to its plan. A refusal changes nothing.
pub fn alter(plan: &[u8], sheet: &mut [u8], position: u32) -> Answer {
    match accept(plan) {
        Ok(plan) => alter_accepted(&plan, sheet, position),
        Err(refusal) => refusal,
    }
}

/// `alter` under a plan that is known to be accepted: checks 11, 13, 17 and 18.
pub fn alter_accepted(plan: &Plan, sheet: &mut [u8], position: u32) -> Answer {
    if let Err(refusal) = check_altering(plan, sheet, position) {
        return refusal;
    }
    sheet.copy_from_slice(&altered_sheet(plan, sheet, position));
    Answer::default()
}

/// Read two scans of one film: give the data that they have once mended. A refusal changes nothing.
pub fn read_two(plan: &[u8], first: &[u8], second: &[u8], data: &mut [u8]) -> Answer {
    match accept(plan) {
        Ok(plan) => read_two_accepted(&plan, first, second, data),
        Err(refusal) => refusal,
    }
}

/// `read_two` under a plan that is known to be accepted: checks 11 to 14 and 19.
pub fn read_two_accepted(plan: &Plan, first: &[u8], second: &[u8], data: &mut [u8]) -> Answer {
    let checked = check_reading_two(plan, first, second, data);
    match checked.and_then(|()| data_of_two(plan, first, second)) {
        Ok(mended) => {
            data.copy_from_slice(&mended);
            Answer::default()
        }
        Err(refusal) => refusal,
    }
}

/// The row where two scans first differ, by its places in the second. No places stand for a refusal too.
pub fn first_difference(plan: &[u8], first: &[u8], second: &[u8]) -> Range<usize> {
    match accept(plan) {
        Ok(plan) => first_difference_accepted(&plan, first, second),
        Err(_) => 0..0,
    }
}

/// `first_difference` under a plan that is known to be accepted: checks 11 and 13.
pub fn first_difference_accepted(plan: &Plan, first: &[u8], second: &[u8]) -> Range<usize> {
    match check_comparing(plan, first, second) {
        Ok(()) => differing_row(plan, first, second),
        Err(_) => 0..0,
    }
}

/// Read a stack of sheets, each as if it were alone. A refusal of the whole stack changes nothing.
pub fn read_stack(plan: &[u8], stack: &mut [u8], numbers: &mut [u8], data: &mut [u8]) -> Answer {
    match accept(plan) {
        Ok(plan) => read_stack_accepted(&plan, stack, numbers, data),
        Err(refusal) => refusal,
    }
}

/// `read_stack` under a plan that is known to be accepted: checks 20, 21 and 12; 13 and 14 are told of each
/// sheet.
pub fn read_stack_accepted(
    plan: &Plan,
    stack: &mut [u8],
    numbers: &mut [u8],
    data: &mut [u8],
) -> Answer {
    match check_reading_stack(plan, stack, numbers, data) {
        Ok(places) => {
            read_each(plan, places, stack, numbers, data);
            Answer::default()
        }
        Err(refusal) => refusal,
    }
}

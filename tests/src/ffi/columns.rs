//! A sheet turned into the other layout. The archive of an earlier commit may have no such calls.

use super::{source, target};
use crate::model::Layout;

type Turn = unsafe extern "C" fn(*const u8, usize, *const u8, usize, *mut u8, usize) -> u64;

#[rustfmt::skip]
extern "C" {
    fn sheet_to_columns(
        plan: *const u8, plan_len: usize,
        source: *const u8, source_len: usize,
        target: *mut u8, target_len: usize,
    ) -> u64;
    fn sheet_to_rows(
        plan: *const u8, plan_len: usize,
        source: *const u8, source_len: usize,
        target: *mut u8, target_len: usize,
    ) -> u64;
}

/// Turning a sheet from this layout into the other, bare, or with null for a buffer of length 0.
#[rustfmt::skip]
pub fn turn(from: Layout, plan: &[u8], sheet: &[u8], into: &mut [u8], null: bool) -> u64 {
    let call: Turn = match from {
        Layout::Rows => sheet_to_columns,
        Layout::Columns => sheet_to_rows,
    };
    // SAFETY: slices are readable, and the mutable one writable and apart from the others; where a
    // length is 0, any pointer may be given.
    unsafe {
        call(
            source(plan, null), plan.len(),
            source(sheet, null), sheet.len(),
            target(into, null), into.len(),
        )
    }
}

//! A burst put back. The archive of an earlier commit may have no such call.

use super::{source, target};

#[rustfmt::skip]
extern "C" {
    fn sheet_put_back(
        plan: *const u8, plan_len: usize,
        sheet: *mut u8, sheet_len: usize,
        answer: u64,
    ) -> u64;
}

/// The call, bare, or with null for a buffer of length 0.
#[rustfmt::skip]
pub fn put_back(plan: &[u8], sheet: &mut [u8], answer: u64, null: bool) -> u64 {
    // SAFETY: slices are readable, and the mutable one writable and apart from the other; where a
    // length is 0, any pointer may be given.
    unsafe {
        sheet_put_back(
            source(plan, null), plan.len(),
            target(sheet, null), sheet.len(),
            answer,
        )
    }
}

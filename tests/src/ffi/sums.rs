//! The sums of a run of rows. The archive of an earlier commit may have no such call.

use std::mem;
use std::ops::Range;

use super::{source, target};

#[rustfmt::skip]
extern "C" {
    fn sheet_sums(
        plan: *const u8, plan_len: usize,
        sheet: *const u8, sheet_len: usize,
        first: u32, past: u32,
        sums: *mut u8, sums_len: usize,
    ) -> u64;
}

/// The call, bare, or with null for a buffer of length 0.
#[rustfmt::skip]
pub fn sums(plan: &[u8], sheet: &[u8], run: Range<u32>, into: &mut [u8], null: bool) -> u64 {
    // SAFETY: slices are readable, and the mutable one writable and apart from the others; where a
    // length is 0, any pointer may be given.
    unsafe {
        sheet_sums(
            source(plan, null), plan.len(),
            source(sheet, null), sheet.len(),
            run.start, run.end,
            target(into, null), into.len(),
        )
    }
}

/// The same, with all 64 bits of the two registers that the numbers are handed over in. A number is the
/// lower half of its register, and the calling convention lets the upper half hold anything.
#[rustfmt::skip]
pub fn sums_by_registers(plan: &[u8], sheet: &[u8], run: Range<u64>, into: &mut [u8]) -> u64 {
    type ByRegisters =
        unsafe extern "C" fn(*const u8, usize, *const u8, usize, u64, u64, *mut u8, usize) -> u64;
    // SAFETY: as for `sums`; to the machine it is the same call.
    unsafe {
        let call = mem::transmute::<*const (), ByRegisters>(sheet_sums as *const ());
        call(
            plan.as_ptr(), plan.len(),
            sheet.as_ptr(), sheet.len(),
            run.start, run.end,
            into.as_mut_ptr(), into.len(),
        )
    }
}

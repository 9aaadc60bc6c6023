//! One data bit altered. The archive of an earlier commit may have no such call.

use std::mem;

use super::{source, target};

#[rustfmt::skip]
extern "C" {
    fn sheet_alter(
        plan: *const u8, plan_len: usize,
        sheet: *mut u8, sheet_len: usize,
        position: u32,
    ) -> u64;
}

/// The call, bare, or with null for a buffer of length 0.
#[rustfmt::skip]
pub fn alter(plan: &[u8], sheet: &mut [u8], position: u32, null: bool) -> u64 {
    // SAFETY: slices are readable, and the mutable one writable and apart from the other; where a
    // length is 0, any pointer may be given.
    unsafe {
        sheet_alter(
            source(plan, null), plan.len(),
            target(sheet, null), sheet.len(),
            position,
        )
    }
}

/// The same, with all 64 bits of the register that the position is handed over in. The position is the
/// lower half of it, and the calling convention lets the upper half hold anything.
#[rustfmt::skip]
pub fn alter_by_register(plan: &[u8], sheet: &mut [u8], register: u64) -> u64 {
    type ByRegister = unsafe extern "C" fn(*const u8, usize, *mut u8, usize, u64) -> u64;
    // SAFETY: as for `alter`; to the machine it is the same call.
    unsafe {
        let call = mem::transmute::<*const (), ByRegister>(sheet_alter as *const ());
        call(
            plan.as_ptr(), plan.len(),
            sheet.as_mut_ptr(), sheet.len(),
            register,
        )
    }
}

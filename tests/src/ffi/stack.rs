//! A stack of sheets. The archive of an earlier commit may have no such call.

use super::{source, target};

#[rustfmt::skip]
extern "C" {
    fn sheet_read_stack(
        plan: *const u8, plan_len: usize,
        stack: *mut u8, stack_len: usize,
        numbers: *mut u8, numbers_len: usize,
        data: *mut u8, data_len: usize,
    ) -> u64;
}

/// Reading a stack, bare, or with null for a buffer of length 0.
#[rustfmt::skip]
pub fn read_stack(
    plan: &[u8], stack: &mut [u8], numbers: &mut [u8], data: &mut [u8], null: bool,
) -> u64 {
    // SAFETY: slices are readable, and the mutable ones writable and apart from all others; where a length
    // is 0, any pointer may be given.
    unsafe {
        sheet_read_stack(
            source(plan, null), plan.len(),
            target(stack, null), stack.len(),
            target(numbers, null), numbers.len(),
            target(data, null), data.len(),
        )
    }
}

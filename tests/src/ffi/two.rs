//! Two scans of one film. The archive of an earlier commit may have no such calls.

use super::{source, target};

#[rustfmt::skip]
extern "C" {
    fn sheet_read_two(
        plan: *const u8, plan_len: usize,
        first: *const u8, first_len: usize,
        second: *const u8, second_len: usize,
        data: *mut u8, data_len: usize,
    ) -> u64;
    fn sheet_first_difference(
        plan: *const u8, plan_len: usize,
        first: *const u8, first_len: usize,
        second: *const u8, second_len: usize,
    ) -> u64;
}

/// Reading two scans, bare, or with null for a buffer of length 0. The scans may overlap each other.
#[rustfmt::skip]
pub fn read_two(plan: &[u8], first: &[u8], second: &[u8], data: &mut [u8], null: bool) -> u64 {
    // SAFETY: slices are readable, and the mutable one writable and apart from the others; where a
    // length is 0, any pointer may be given.
    unsafe {
        sheet_read_two(
            source(plan, null), plan.len(),
            source(first, null), first.len(),
            source(second, null), second.len(),
            target(data, null), data.len(),
        )
    }
}

/// Where two scans first differ, likewise. See `part`.
#[rustfmt::skip]
pub fn first_difference(plan: &[u8], first: &[u8], second: &[u8], null: bool) -> u64 {
    // SAFETY: as for `read_two`; nothing is written.
    unsafe {
        sheet_first_difference(
            source(plan, null), plan.len(),
            source(first, null), first.len(),
            source(second, null), second.len(),
        )
    }
}

/// The row that a difference tells of, in the second scan, as the header's sheet_scans_differ gives it:
/// its place is in the lower half of the difference and its length in the upper. It must lie in the scan.
pub fn part(second: &[u8], difference: u64) -> &[u8] {
    let (place, length) = (difference as u32 as usize, (difference >> 32) as usize);
    assert!(length != 0 || place == 0, "an empty part has a place, {place}");
    let part = second.get(place..).and_then(|rest| rest.get(..length));
    part.unwrap_or_else(|| panic!("{length} bytes at {place} are not in the second scan"))
}

//! The calls of libsheet.a: bare, and on guarded buffers.

mod alter;
#[cfg(feature = "before")]
pub mod before;
mod columns;
mod guarded;
mod put;
mod stack;
mod sums;
mod two;

pub use alter::{alter, alter_by_register};
pub use columns::turn;
pub use guarded::Library;
pub use put::put_back;
pub use stack::read_stack;
pub use sums::{sums, sums_by_registers};
pub use two::{first_difference, part, read_two};

use std::ptr;

use crate::given::Given;
use crate::model::Layout;

type PlanTest = unsafe extern "C" fn(*const u8, usize) -> u64;
type Write = unsafe extern "C" fn(*const u8, usize, *const u8, usize, *mut u8, usize) -> u64;
type Read = unsafe extern "C" fn(*const u8, usize, *mut u8, usize, *mut u8, usize) -> u64;

/// The plan test of an archive, and the calls that write and read sheets in one layout, bare.
#[derive(Clone, Copy)]
pub struct Archive {
    plan_test: PlanTest,
    write: Write,
    read: Read,
    /// Hand over null for a buffer of length 0.
    null: bool,
}

/// Names the symbols of an archive.
macro_rules! archive {
    ($(#[$about:meta])* $name:ident: $plan_test:ident, $write:ident, $read:ident) => {
        $(#[$about])*
        pub const $name: Archive = {
            extern "C" {
                fn $plan_test(plan: *const u8, plan_len: usize) -> u64;
                fn $write(
                    plan: *const u8, plan_len: usize,
                    data: *const u8, data_len: usize,
                    sheet: *mut u8, sheet_len: usize,
                ) -> u64;
                fn $read(
                    plan: *const u8, plan_len: usize,
                    sheet: *mut u8, sheet_len: usize,
                    data: *mut u8, data_len: usize,
                ) -> u64;
            }
            Archive { plan_test: $plan_test, write: $write, read: $read, null: false }
        };
    };
}

archive! {
    /// The archive under test.
    SHEET: sheet_plan_test, sheet_write, sheet_read
}

archive! {
    /// The archive under test, on sheets by columns. That of an earlier commit may have no such calls.
    BY_COLUMN: sheet_plan_test, sheet_write_by_column, sheet_read_by_column
}

archive! {
    /// The archive under test, with sheets that are read by trial. That of an earlier commit may have no such call.
    BY_TRIAL: sheet_plan_test, sheet_write, sheet_read_by_trial
}

#[cfg(feature = "before")]
archive! {
    /// The archive of an earlier commit, whose symbols have been given other names. Its plans may have
    /// another form: see `before`.
    BEFORE: before_plan_test, before_write, before_read
}

#[rustfmt::skip]
impl Archive {
    /// The archive under test, on sheets in this layout.
    pub const fn of(layout: Layout) -> Archive {
        match layout {
            Layout::Rows => SHEET,
            Layout::Columns => BY_COLUMN,
        }
    }

    /// The same calls, with null for a buffer of length 0.
    pub const fn with_null(self) -> Archive {
        Archive { null: true, ..self }
    }

    fn at(&self, buffer: &[u8]) -> *const u8 {
        source(buffer, self.null)
    }

    fn at_mut(&self, buffer: &mut [u8]) -> *mut u8 {
        target(buffer, self.null)
    }

    pub fn plan_test(&self, plan: &[u8]) -> u64 {
        // SAFETY: a slice is readable for its length; where that is 0, any pointer may be given.
        unsafe { (self.plan_test)(self.at(plan), plan.len()) }
    }

    pub fn write(&self, plan: &[u8], data: &[u8], sheet: &mut [u8]) -> u64 {
        // SAFETY: slices are readable, and the mutable one writable and apart from the others.
        unsafe {
            (self.write)(
                self.at(plan), plan.len(),
                self.at(data), data.len(),
                self.at_mut(sheet), sheet.len(),
            )
        }
    }

    pub fn read(&self, plan: &[u8], sheet: &mut [u8], data: &mut [u8]) -> u64 {
        // SAFETY: as for `write`.
        unsafe {
            (self.read)(
                self.at(plan), plan.len(),
                self.at_mut(sheet), sheet.len(),
                self.at_mut(data), data.len(),
            )
        }
    }
}

/// The maker of plans, bare, or with null for a buffer of length 0.
#[rustfmt::skip]
pub fn plan_make(given: &Given, plan: &mut [u8], null: bool) -> u64 {
    extern "C" {
        fn sheet_plan_make(
            n1: u32, n2: u32, b1: u32, b2: u32, t: u32,
            rv: u32, v_low: u32, rh: u32, h_low: u32,
            plan: *mut u8, plan_len: usize,
        ) -> u64;
    }
    let Given { n1, n2, b1, b2, t, rv, v_low, rh, h_low } = *given;
    let at = target(plan, null);
    // SAFETY: a mutable slice is writable for its length; where that is 0, any pointer may be given.
    unsafe { sheet_plan_make(n1, n2, b1, b2, t, rv, v_low, rh, h_low, at, plan.len()) }
}

/// The maker of the house plan, bare, or with null for a buffer of length 0. The archive of an earlier
/// commit may have none.
pub fn house_plan(plan: &mut [u8], null: bool) -> u64 {
    extern "C" {
        fn sheet_house_plan(plan: *mut u8, plan_len: usize) -> u64;
    }
    // SAFETY: as for `plan_make`.
    unsafe { sheet_house_plan(target(plan, null), plan.len()) }
}

/// Where a call is to look; null for a buffer of length 0, if that is asked for.
fn source(buffer: &[u8], null: bool) -> *const u8 {
    if null && buffer.is_empty() {
        ptr::null()
    } else {
        buffer.as_ptr()
    }
}

/// Where a call is to write; null for a buffer of length 0, if that is asked for.
fn target(buffer: &mut [u8], null: bool) -> *mut u8 {
    if null && buffer.is_empty() {
        ptr::null_mut()
    } else {
        buffer.as_mut_ptr()
    }
}

//! Sheets of every kind under an accepted plan, in either layout.

use crate::damage::set_unused_in;
use crate::model::{self, Layout};
use crate::pairs::hopeless;
use crate::plan::Plan;
use crate::rng::Rng;
use crate::scans::{random_burst, random_data, turned};

/// What a sheet is.
#[derive(Clone, Copy, Debug, PartialEq, Eq)]
pub enum Kind {
    Written,
    Burst,
    Hopeless,
    Unused,
    Anything,
}

pub const KINDS: [Kind; 5] =
    [Kind::Written, Kind::Burst, Kind::Hopeless, Kind::Unused, Kind::Anything];

/// A sheet of this kind: as written; with a burst; such as no burst mends, if one is found; with unused bits
/// that are 1, if rows have any, and a burst or not; any bytes.
pub fn sheet_of(plan: &Plan, kind: Kind, rng: &mut Rng) -> Vec<u8> {
    sheet_in(Layout::Rows, plan, kind, rng)
}

/// The same in this layout.
pub fn sheet_in(layout: Layout, plan: &Plan, kind: Kind, rng: &mut Rng) -> Vec<u8> {
    let written = model::write_sheet(plan, &random_data(plan, rng));
    match kind {
        Kind::Written => layout.of_rows(plan, written),
        Kind::Burst => layout.of_rows(plan, turned(plan, &written, &random_burst(plan, rng))),
        Kind::Hopeless => layout.of_rows(plan, hopeless(plan, rng).unwrap_or(written)),
        Kind::Unused => {
            let of = rng.pick(&[Kind::Written, Kind::Burst, Kind::Hopeless]);
            let mut sheet = sheet_in(layout, plan, of, rng);
            for _ in 0..rng.within(1, 3) {
                set_unused_in(layout, plan, &mut sheet, rng);
            }
            sheet
        }
        Kind::Anything => rng.bytes(layout.sheet_len(plan)),
    }
}

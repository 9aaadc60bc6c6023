//! One stitch altered, by the words of request f of document 02.

use super::sheet::{data_of, write_sheet};
use crate::plan::Plan;

/// The sheet written afresh from the data that this one holds, with the bit at the position turned over.
pub fn altered_sheet(plan: &Plan, sheet: &[u8], position: u32) -> Vec<u8> {
    write_sheet(plan, &altered_data(&data_of(plan, sheet), position))
}

/// The data with one bit turned over.
pub fn altered_data(data: &[u8], position: u32) -> Vec<u8> {
    let mut data = data.to_vec();
    data[position as usize / 8] ^= 1 << (position % 8);
    data
}

//! Sheets by rows as bytes: cells, syndrome, data, and the written sheet.

use super::algebra::solve;
use super::layout::Layout;
use crate::plan::Plan;

/// Row and column.
pub type Cell = (usize, usize);

/// All cells in sheet order.
pub fn cells(plan: &Plan) -> impl Iterator<Item = Cell> + '_ {
    (0..plan.n1).flat_map(|i| (0..plan.n2).map(move |j| (i, j)))
}

/// Is the cell dark?
pub fn cell(plan: &Plan, sheet: &[u8], at: Cell) -> bool {
    Layout::Rows.cell(plan, sheet, at)
}

pub fn turn_over(plan: &Plan, sheet: &mut [u8], at: Cell) {
    Layout::Rows.turn_over(plan, sheet, at);
}

/// The bits of a row's last byte that no column uses.
pub fn unused_bits(plan: &Plan) -> u8 {
    Layout::Rows.unused_bits(plan)
}

/// The two sums of a sheet as one number, V + 2^rv × H. It is 0 if the sheet belongs to the plan.
pub fn syndrome(plan: &Plan, sheet: &[u8]) -> u64 {
    let mut sum = 0;
    for i in 0..plan.n1 {
        for j in 0..plan.n2 {
            if cell(plan, sheet, (i, j)) {
                sum ^= plan.joint(i, j);
            }
        }
    }
    sum
}

/// Where the data lies: the cells that are not check cells, row by row. In even rows it runs from
/// column 0 up, in odd rows from the highest column down. The check list is in sheet order.
pub fn data_cells(plan: &Plan) -> impl Iterator<Item = Cell> + '_ {
    let column = |i, place| if i % 2 == 1 { plan.n2 - 1 - place } else { place };
    let cells =
        (0..plan.n1).flat_map(move |i| (0..plan.n2).map(move |place| (i, column(i, place))));
    cells.filter(|&(i, j)| plan.checks.binary_search(&(i as u16, j as u16)).is_err())
}

/// The data in a sheet, packed lowest bit first.
pub fn data_of(plan: &Plan, sheet: &[u8]) -> Vec<u8> {
    let mut data = vec![0; plan.data_len()];
    for (bit, at) in data_cells(plan).enumerate() {
        data[bit / 8] |= u8::from(cell(plan, sheet, at)) << (bit % 8);
    }
    data
}

/// The written sheet: the one that holds the data in the cells that are not check cells and
/// belongs to the plan. The plan must be accepted and the data of the right length.
pub fn write_sheet(plan: &Plan, data: &[u8]) -> Vec<u8> {
    let mut sheet = vec![0; plan.sheet_len()];
    for (bit, at) in data_cells(plan).enumerate() {
        if data[bit / 8] >> (bit % 8) & 1 == 1 {
            turn_over(plan, &mut sheet, at);
        }
    }
    let checks = plan.checks.iter().map(|&(i, j)| (usize::from(i), usize::from(j)));
    let entries = checks.clone().map(|(i, j)| plan.joint(i, j));
    let dark =
        solve(entries, syndrome(plan, &sheet)).expect("the check cells of an accepted plan span");
    for (index, at) in checks.enumerate() {
        if dark >> index & 1 == 1 {
            turn_over(plan, &mut sheet, at);
        }
    }
    sheet
}

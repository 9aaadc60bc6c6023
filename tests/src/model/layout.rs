//! How a sheet lies in bytes: row after row, or column after column by the words of request i of document 02.

use super::sheet::{cells, Cell};
use crate::plan::Plan;

/// A sheet by rows or a sheet by columns. A line is what it is stored by: a row or a column.
#[derive(Clone, Copy, Debug, PartialEq, Eq)]
pub enum Layout {
    Rows,
    Columns,
}

impl Layout {
    pub const BOTH: [Layout; 2] = [Layout::Rows, Layout::Columns];

    pub fn other(self) -> Layout {
        match self {
            Layout::Rows => Layout::Columns,
            Layout::Columns => Layout::Rows,
        }
    }

    /// How many lines there are. A line has as many cells as there are lines in the other layout.
    pub fn lines(self, plan: &Plan) -> usize {
        match self {
            Layout::Rows => plan.n1,
            Layout::Columns => plan.n2,
        }
    }

    /// Bytes of one line.
    pub fn line_len(self, plan: &Plan) -> usize {
        match self {
            Layout::Rows => plan.row_len(),
            Layout::Columns => plan.column_len(),
        }
    }

    pub fn sheet_len(self, plan: &Plan) -> usize {
        self.lines(plan) * self.line_len(plan)
    }

    /// The bits of a line's last byte that no cell uses.
    pub fn unused_bits(self, plan: &Plan) -> u8 {
        match self.other().lines(plan) % 8 {
            0 => 0,
            used => 0xff << used,
        }
    }

    /// The byte of a cell, and its bit in that.
    pub fn place(self, plan: &Plan, (i, j): Cell) -> (usize, usize) {
        match self {
            Layout::Rows => (i * plan.row_len() + j / 8, j % 8),
            Layout::Columns => (j * plan.column_len() + i / 8, i % 8),
        }
    }

    /// Is the cell dark?
    pub fn cell(self, plan: &Plan, sheet: &[u8], at: Cell) -> bool {
        let (byte, bit) = self.place(plan, at);
        sheet[byte] >> bit & 1 == 1
    }

    pub fn turn_over(self, plan: &Plan, sheet: &mut [u8], at: Cell) {
        let (byte, bit) = self.place(plan, at);
        sheet[byte] ^= 1 << bit;
    }

    /// The sheet, which lies in this layout, turned: the one in the other layout that has the same dark cells.
    pub fn turned(self, plan: &Plan, sheet: &[u8]) -> Vec<u8> {
        let other = self.other();
        let mut turned = vec![0; other.sheet_len(plan)];
        for at in cells(plan).filter(|&at| self.cell(plan, sheet, at)) {
            other.turn_over(plan, &mut turned, at);
        }
        turned
    }

    /// A sheet by rows, in this layout.
    pub fn of_rows(self, plan: &Plan, sheet: Vec<u8>) -> Vec<u8> {
        match self {
            Layout::Rows => sheet,
            Layout::Columns => by_columns(plan, &sheet),
        }
    }
}

/// A sheet by rows, turned into one by columns.
pub fn by_columns(plan: &Plan, sheet: &[u8]) -> Vec<u8> {
    Layout::Rows.turned(plan, sheet)
}

/// A sheet by columns, turned into one by rows.
pub fn by_rows(plan: &Plan, sheet: &[u8]) -> Vec<u8> {
    Layout::Columns.turned(plan, sheet)
}

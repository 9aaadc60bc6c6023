//! A plan and its bytes (document 01, "Plan bytes").
//!
//! Words: a row is a course of 01, a column a needle, a burst a blot, a check cell a listed cell.

use crate::answer::Answer;

pub const HEADER_LEN: usize = 22;

/// The eleven 16-bit numbers of the header, by their place.
pub mod field {
    pub const N1: usize = 0;
    pub const N2: usize = 1;
    pub const B1: usize = 2;
    pub const B2: usize = 3;
    pub const RV: usize = 4;
    pub const RH: usize = 5;
    pub const V_OFFSET: usize = 6;
    pub const H_OFFSET: usize = 7;
    pub const CHECK_OFFSET: usize = 8;
    pub const LENGTH: usize = 9;
    pub const T: usize = 10;
}

#[derive(Clone, Debug, PartialEq, Eq)]
pub struct Plan {
    /// Rows and columns of the sheet.
    pub n1: usize,
    pub n2: usize,
    /// Rows and columns of a burst.
    pub b1: usize,
    pub b2: usize,
    /// The most cells of a burst, 1 or 2; or 0, if it may have any of its rectangle (request m of 02).
    pub t: usize,
    /// Bits of a V entry and of an H entry.
    pub rv: usize,
    pub rh: usize,
    /// The row table, b2 entries a row.
    pub v: Vec<u32>,
    /// The column table, b1 entries a column.
    pub h: Vec<u32>,
    /// The check cells, (row, column).
    pub checks: Vec<(u16, u16)>,
}

fn number16(bytes: &[u8], at: usize) -> u16 {
    u16::from_le_bytes([bytes[at], bytes[at + 1]])
}

fn number32(bytes: &[u8], at: usize) -> u32 {
    u32::from_le_bytes([bytes[at], bytes[at + 1], bytes[at + 2], bytes[at + 3]])
}

/// A number of the header. The bytes must hold it.
pub fn header_field(bytes: &[u8], field: usize) -> u16 {
    number16(bytes, 2 * field)
}

pub fn set_header_field(bytes: &mut [u8], field: usize, value: u16) {
    bytes[2 * field..2 * field + 2].copy_from_slice(&value.to_le_bytes());
}

impl Plan {
    /// Checks 2, 3, 4 and 23, which are about the sizes alone.
    pub fn check_sizes(&self) -> Result<(), Answer> {
        let burst_good = [self.b1, self.b2].iter().all(|b| (1..=4).contains(b));
        let size_good = (self.b1..=512).contains(&self.n1) && (self.b2..=698).contains(&self.n2);
        let width_good = [self.rv, self.rh].iter().all(|r| (1..=32).contains(r));
        Answer::refuse_if(!burst_good, 2)?;
        Answer::refuse_if(!size_good, 3)?;
        Answer::refuse_if(!width_good, 4)?;
        Answer::refuse_if(self.t > 2, 23)
    }

    /// The offsets of the two tables and of the check list, and the length, as the rule gives them.
    pub fn layout(&self) -> [usize; 4] {
        let v = HEADER_LEN;
        let h = v + 4 * self.n1 * self.b2;
        let checks = h + 4 * self.n2 * self.b1;
        [v, h, checks, checks + 4 * (self.rv + self.rh)]
    }

    pub fn encode(&self) -> Vec<u8> {
        let sizes = [self.n1, self.n2, self.b1, self.b2, self.rv, self.rh];
        let header = sizes.into_iter().chain(self.layout()).chain([self.t]);
        let mut bytes: Vec<u8> = header.flat_map(|n| (n as u16).to_le_bytes()).collect();
        bytes.extend(self.v.iter().chain(&self.h).flat_map(|entry| entry.to_le_bytes()));
        for (row, column) in &self.checks {
            bytes.extend(row.to_le_bytes());
            bytes.extend(column.to_le_bytes());
        }
        bytes
    }

    /// The plan in these bytes, or the refusal of the first of checks 1 to 4, 23 and 5 that fails.
    pub fn parse(bytes: &[u8]) -> Result<Plan, Answer> {
        Answer::refuse_if(bytes.len() < HEADER_LEN, 1)?;
        let field = |place| usize::from(header_field(bytes, place));
        let mut plan = Plan {
            n1: field(field::N1),
            n2: field(field::N2),
            b1: field(field::B1),
            b2: field(field::B2),
            t: field(field::T),
            rv: field(field::RV),
            rh: field(field::RH),
            v: Vec::new(),
            h: Vec::new(),
            checks: Vec::new(),
        };
        plan.check_sizes()?;
        let layout = plan.layout();
        let told =
            [field::V_OFFSET, field::H_OFFSET, field::CHECK_OFFSET, field::LENGTH].map(field);
        Answer::refuse_if(told != layout || bytes.len() != layout[3], 5)?;

        let [v, h, checks, end] = layout;
        plan.v = (v..h).step_by(4).map(|at| number32(bytes, at)).collect();
        plan.h = (h..checks).step_by(4).map(|at| number32(bytes, at)).collect();
        let pair = |at| (number16(bytes, at), number16(bytes, at + 2));
        plan.checks = (checks..end).step_by(4).map(pair).collect();
        Ok(plan)
    }

    /// The V entry of cell (i, j).
    pub fn v_entry(&self, i: usize, j: usize) -> u32 {
        self.v[i * self.b2 + j % self.b2]
    }

    /// The H entry of cell (i, j).
    pub fn h_entry(&self, i: usize, j: usize) -> u32 {
        self.h[j * self.b1 + i % self.b1]
    }

    /// The joint entry of cell (i, j): V + 2^rv × H.
    pub fn joint(&self, i: usize, j: usize) -> u64 {
        u64::from(self.v_entry(i, j)) | u64::from(self.h_entry(i, j)) << self.rv
    }

    /// The most cells that a burst has.
    pub fn most_cells(&self) -> usize {
        let rectangle = self.b1 * self.b2;
        if self.t == 0 {
            rectangle
        } else {
            rectangle.min(self.t)
        }
    }

    /// Bytes of one row of a sheet.
    pub fn row_len(&self) -> usize {
        self.n2.div_ceil(8)
    }

    /// Bytes of a sheet by rows.
    pub fn sheet_len(&self) -> usize {
        self.n1 * self.row_len()
    }

    /// Bytes of one column of a sheet by columns.
    pub fn column_len(&self) -> usize {
        self.n1.div_ceil(8)
    }

    /// k, the number of data bits. The check cells must lie on the sheet.
    pub fn data_bits(&self) -> usize {
        self.n1 * self.n2 - self.checks.len()
    }

    pub fn data_len(&self) -> usize {
        self.data_bits().div_ceil(8)
    }
}

//! `cargo run --release --no-default-features --bin find_tables`: find the ratio that `make` names, by
//! trying numbers in rising order. It takes some seconds. (Polynomials are found by `make find`,
//! through the call; `field_rows` is no table that the call makes.)
//!
//! In this table each row is a fixed invertible map of the one before, so that two windows are
//! independent if the two are that start at 0 and as far apart.

use sheet_tests::make::{field_rows, ROWS_4X4};
use sheet_tests::model::{independent, window_entries};
use sheet_tests::plan::Plan;

fn main() {
    // Most fail early: look at a few rows first.
    let serves = |ratio| [16, ROWS_4X4].iter().all(|&rows| windows_serve(rows, ratio));
    let ratio = (1..).find(|&ratio| serves(ratio)).expect("there is one");
    println!("ratio for {ROWS_4X4} rows, 4 x 4: {ratio:#x}");
}

fn windows_serve(rows: usize, ratio: u32) -> bool {
    let v = field_rows(rows, ratio);
    // Nothing else of the plan counts here.
    let plan =
        Plan { n1: rows, n2: 4, b1: 4, b2: 4, t: 0, rv: 32, rh: 1, v, h: vec![], checks: vec![] };
    (0..=rows - 4).all(|second| independent(window_entries(&plan, 0, second)))
}

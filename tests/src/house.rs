//! The column table of the house plan (request d of document 02): by its sentence, as the crates hold
//! it, and as the program housetable prints it.

use std::fs;
use std::path::Path;

use crate::given::HOUSE;
use crate::make::{powers, H_3X3};

/// How many entries the table has: b1 for each column.
const COUNT: usize = (HOUSE.n2 * HOUSE.b1) as usize;

/// The table by the sentence: the first entry is 1, and each after it is z times the one before, modulo
/// the house polynomial.
pub fn columns() -> Vec<u32> {
    powers(COUNT, H_3X3)
}

/// What housetable prints: the entries in decimal, one a line.
pub fn printed() -> String {
    columns().iter().map(|entry| format!("{entry}\n")).collect()
}

/// What housetable is to print, as the gate compares it.
pub fn stored() -> String {
    of_the_crates("housetable/stdout")
}

/// The entries of the constant, read out of its source.
pub fn constant() -> Vec<u32> {
    let source = of_the_crates("house/src/constant.rt");
    let head = format!("const COLUMNS: [u32; {COUNT}] = [");
    let (_, rest) = source.split_once(&head).expect("the crate declares the table");
    let (entries, _) = rest.split_once("];").expect("the table ends");
    let entries = entries.trim();
    let entries = entries.strip_suffix(',').unwrap_or(entries).split(',');
    entries.map(|entry| entry.trim().parse().expect("an entry is written in decimal")).collect()
}

/// A file of the crates, which stand beside this package.
fn of_the_crates(file: &str) -> String {
    let path = Path::new(env!("CARGO_MANIFEST_DIR")).join("../crates").join(file);
    fs::read_to_string(&path).unwrap_or_else(|error| panic!("{}: {error}", path.display()))
}

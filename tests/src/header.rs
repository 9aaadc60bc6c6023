//! Numbers that include/sheet.h names for C, read out of it, so that each stands in one place.

const HEADER: &str = include_str!("../../include/sheet.h");

/// The value of an enumerator of the header.
pub fn constant(name: &str) -> usize {
    let mut lines = HEADER.lines().filter_map(|line| line.trim().split_once(" = "));
    let (_, value) = lines.find(|&(left, _)| left == name).expect("the header names it");
    let digits = value.split(|c: char| !c.is_ascii_digit()).next().expect("there is a first part");
    digits.parse().expect("its value is written in decimal")
}

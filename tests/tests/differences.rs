//! sheet_first_difference by the thousands: every cell that two scans may differ in, rows of every length, and
//! the edges of the blocks of bytes that the library compares at once.

use sheet_tests::compared::{house_by_call, Harness};
use sheet_tests::make::{accepted, burst_sizes, powers_3x3, CellOrder};
use sheet_tests::pairs::row_places;
use sheet_tests::scans::{random_sheet, turned};

/// Scans that differ in one cell, each in turn: its row is told, the first of the sheet and the last too.
/// With another cell turned over that comes later, in the same row or below, it is the same row. Rows have
/// every length modulo 64.
#[test]
fn every_cell_that_differs() {
    let mut harness = Harness::new(97);
    let mut cells = 0;
    for n2 in 7..=75 {
        let plan = powers_3x3(8, n2, CellOrder::Scattered, &mut harness.rng);
        let first = random_sheet(&plan, &mut harness.rng);
        harness.differs_first(&plan, [&first, &first], &[]);
        let last = (plan.n1 - 1, n2 - 1);
        for at in 0..8 * n2 {
            // Of the long rows not every cell: its ends, and some between.
            let cell = (at / n2, at % n2);
            if n2 > 20 && !(8..=9).contains(&(cell.1 % 16)) && cell.1 > 0 && cell.1 < n2 - 1 {
                continue;
            }
            let later = harness.rng.within(at, 8 * n2 - 1);
            let (later, mut turned_over) = ((later / n2, later % n2), vec![cell]);
            for other in [cell, later, last] {
                if !turned_over.contains(&other) {
                    turned_over.push(other);
                }
                let second = turned(&plan, &first, &turned_over);
                harness.differs_first(&plan, [&first, &second], &turned_over);
                harness.differs_first(&plan, [&second, &first], &turned_over);
            }
            cells += 1;
        }
    }
    println!("{cells} cells in which two scans differ first");
    assert!(cells >= 4500);
}

/// Scans of any two sheets, and of one sheet in which whole rows are turned over, none, some or all: the
/// first such row is told, as the model does.
#[test]
fn rows_that_differ() {
    let mut harness = Harness::new(98);
    let (mut rows, mut equal) = (0, 0);
    for (b1, b2) in burst_sizes() {
        for _ in 0..30 {
            let plan = accepted(&mut harness.rng, b1, b2, 14);
            for _ in 0..10 {
                let rng = &mut harness.rng;
                let (first, other) = (random_sheet(&plan, rng), random_sheet(&plan, rng));
                let some: Vec<usize> = (0..plan.n1).filter(|_| rng.one_in(5)).collect();
                let of_row = |&i: &usize| (0..plan.n2).map(move |j| (i, j));
                let second =
                    turned(&plan, &first, &some.iter().flat_map(of_row).collect::<Vec<_>>());
                let told = harness.differing_row(&plan, &first, &second);
                assert_eq!(told, some.first().map_or(0..0, |&row| row_places(&plan, row)));
                equal += usize::from(some.is_empty());
                rows += usize::from(!harness.differing_row(&plan, &first, &other).is_empty());
            }
        }
    }
    println!("{rows} rows that differ; {equal} scans that do not");
    assert!(rows >= 4000 && equal >= 500);
}

/// Full size: scans that differ in one byte alone, about the edges of blocks of 64 bytes, the first and the last
/// of them too; then in a later byte besides, which decides nothing. The last byte of a row has two cells.
#[test]
fn edges_of_blocks() {
    let mut harness = Harness::new(101);
    let plan = house_by_call();
    let first = random_sheet(&plan, &mut harness.rng);
    let edges = [0, 64, 128, 704, 22_528, 44_992, 45_056];
    let about = |edge: usize| edge.saturating_sub(2)..(edge + 2).min(first.len());
    let mut places: Vec<usize> = edges.into_iter().flat_map(about).collect();
    places.extend((0..200).map(|_| harness.rng.below(first.len())));
    for at in places {
        let mut second = first.clone();
        let cell = (at / plan.row_len(), at % plan.row_len() * 8 + harness.rng.below(2));
        second[at] ^= 1 << (cell.1 % 8);
        harness.differs_first(&plan, [&first, &second], &[cell]);
        harness.differs_first(&plan, [&second, &first], &[cell]);
        if at + 1 < first.len() {
            second[harness.rng.within(at + 1, first.len() - 1)] ^= 1;
            harness.differs_first(&plan, [&first, &second], &[cell]);
        }
    }
}

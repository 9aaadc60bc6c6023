//! sheet_write_by_column, sheet_read_by_column, sheet_to_columns and sheet_to_rows, case by case, beside the
//! model: sheets worked out by hand, every sheet of the smallest plans, the place of every cell and of every data
//! bit, plans without data, what the buffers held.

use sheet_tests::answer::Answer;
use sheet_tests::cases::{
    column_cases, column_read_cases, plan_s, plan_t, plan_tall, plan_two_rows,
};
use sheet_tests::compared::Harness;
use sheet_tests::damage::set_unused_in;
use sheet_tests::ffi::Library;
use sheet_tests::kinds::{sheet_in, Kind, KINDS};
use sheet_tests::make::{
    accepted, burst_sizes, no_data, plans_of_many_sizes, powers_3x3, CellOrder,
};
use sheet_tests::model::{by_columns, cells, Layout};
use sheet_tests::plan::Plan;
use sheet_tests::scans::{every_sheet, random_data};
use sheet_tests::tally::Tally;

/// S, T and others: written, turned either way, and read.
#[test]
fn worked_sheets() {
    let mut library = Library::new(141);
    for (plan, data, rows, columns) in column_cases() {
        let bytes = plan.encode();
        for held in [0x00, 0xaa, 0xff] {
            let (mut written, mut turned) = (vec![held; columns.len()], vec![held; columns.len()]);
            assert_eq!(library.write_in(Layout::Columns, &bytes, &data, &mut written), 0);
            assert_eq!(library.turn(Layout::Rows, &bytes, &rows, &mut turned), 0);
            assert_eq!((&written, &turned), (&columns, &columns));
            let mut back = vec![held; rows.len()];
            assert_eq!(library.turn(Layout::Columns, &bytes, &columns, &mut back), 0);
            assert_eq!(back, rows);
        }
    }
    for (plan, mut sheet, expected) in column_read_cases() {
        let before = sheet.clone();
        let mut data = vec![0xaa; plan.data_len()];
        let answer = library.read_in(Layout::Columns, &plan.encode(), &mut sheet, &mut data);
        let answer = Answer::unpack(answer);
        match expected {
            Some((numbers, mended, text)) => {
                assert_eq!((answer.places(), answer.mended()), ((0, 0, 0), numbers));
                assert_eq!((sheet, data), (mended, text));
            }
            None => {
                assert_eq!(answer, Answer::refusal(14, 0, 0));
                assert_eq!((sheet, data), (before, vec![0xaa; plan.data_len()]));
            }
        }
    }
}

/// Every string of data, every sheet, and every byte for all bytes of a sheet, under the smallest plans: beside
/// the model, and of the right form beside the calls on sheets by rows.
#[test]
fn every_sheet_of_the_smallest_plans() {
    let mut harness = Harness::new(142);
    let (mut reads, mut turns) = (Tally::default(), Tally::default());
    for plan in [plan_s(), plan_t(), plan_two_rows(), no_data()] {
        let bytes = plan.encode();
        for data in 0..1 << plan.data_bits() {
            let data = [data];
            let data = &data[..plan.data_len()];
            let len = Layout::Columns.sheet_len(&plan);
            assert_eq!(harness.write_by_column(&bytes, data, len), 0);
        }
        for sheet in every_sheet(&plan) {
            let columns = by_columns(&plan, &sheet);
            let answer = harness.read_by_column(&bytes, &columns, plan.data_len());
            assert_eq!(harness.reads_alike(&plan, &sheet), answer);
            reads.count(answer);
            assert_eq!(harness.turned_from(Layout::Rows, &plan, &sheet), (0, columns.clone()));
            assert_eq!(harness.turned_from(Layout::Columns, &plan, &columns), (0, sheet));
        }
        for byte in 0..=255 {
            let columns = vec![byte; Layout::Columns.sheet_len(&plan)];
            reads.count(harness.read_by_column(&bytes, &columns, plan.data_len()));
            for from in Layout::BOTH {
                let source = vec![byte; from.sheet_len(&plan)];
                turns.count(harness.turn(from, &bytes, &source, from.other().sheet_len(&plan)));
            }
        }
    }
    reads.require("sheet_read_by_column", &[(0..=0, 300), (13..=13, 500), (14..=14, 200)]);
    turns.require("sheet_to_columns and sheet_to_rows", &[(0..=0, 50), (13..=13, 1500)]);
}

/// 02 i), word for word: one dark cell in row i and column j is bit i mod 8 of byte i / 8 of column j's bytes, of
/// which each column has n1 / 8, rounded up; in a sheet by rows it is bit j mod 8 of byte j / 8 of row i's. All other
/// bits are 0, whatever the target held.
#[test]
fn one_dark_cell() {
    let mut harness = Harness::new(143);
    let mut count = 0;
    for plan in plans_of_many_sizes(&mut harness.rng) {
        let (bytes, &Plan { n1, n2, .. }) = (plan.encode(), &plan);
        let (of_row, of_column) = (n2.div_ceil(8), n1.div_ceil(8));
        for (i, j) in cells(&plan) {
            let (mut rows, mut columns) = (vec![0; n1 * of_row], vec![0; n2 * of_column]);
            rows[i * of_row + j / 8] = 1 << (j % 8);
            columns[j * of_column + i / 8] = 1 << (i % 8);
            let mut turned = harness.rng.bytes(columns.len());
            assert_eq!(harness.library.turn(Layout::Rows, &bytes, &rows, &mut turned), 0);
            assert!(turned == columns, "({i}, {j}) of {n1} x {n2} by columns");
            let mut back = harness.rng.bytes(rows.len());
            assert_eq!(harness.library.turn(Layout::Columns, &bytes, &columns, &mut back), 0);
            assert!(back == rows, "({i}, {j}) of {n1} x {n2} by rows");
            count += 1;
        }
    }
    println!("{count} cells, each turned both ways");
    assert!(count >= 5000);
}

/// The data runs as it does by rows: row by row, in odd rows from the highest column down, check cells left out. One
/// data bit alone darkens the cell of its number, and of the other data cells none; read, it is given back.
#[test]
fn one_data_bit() {
    let mut harness = Harness::new(144);
    let mut bits = 0;
    for plan in plans_of_many_sizes(&mut harness.rng) {
        let (bytes, of_column) = (plan.encode(), plan.n1.div_ceil(8));
        let mut cells = Vec::new();
        for i in 0..plan.n1 {
            let row = (0..plan.n2).map(|j| (i, if i % 2 == 0 { j } else { plan.n2 - 1 - j }));
            cells.extend(row.filter(|&(i, j)| !plan.checks.contains(&(i as u16, j as u16))));
        }
        for (bit, &(i, j)) in cells.iter().enumerate().step_by(cells.len() / 300 + 1) {
            let mut data = vec![0; cells.len().div_ceil(8)];
            data[bit / 8] = 1 << (bit % 8);
            let mut sheet = harness.rng.bytes(plan.n2 * of_column);
            let write = harness.library.write_in(Layout::Columns, &bytes, &data, &mut sheet);
            assert_eq!(write, 0);
            let dark =
                |&&(i, j): &&(usize, usize)| sheet[j * of_column + i / 8] >> (i % 8) & 1 == 1;
            assert!(cells.iter().filter(dark).eq([&(i, j)]), "bit {bit} under {plan:?}");
            let mut text = harness.rng.bytes(data.len());
            let read = harness.library.read_in(Layout::Columns, &bytes, &mut sheet, &mut text);
            assert!(read == 0 && text == data, "bit {bit} under {plan:?}");
            bits += 1;
        }
    }
    println!("{bits} data bits, each alone");
    assert!(bits >= 2000);
}

/// A plan without data: sheets are written from none, mended or refused, and the data buffer is empty.
#[test]
fn plans_without_data() {
    let mut harness = Harness::new(152);
    let (mut tally, mut plans) = (Tally::default(), vec![no_data()]);
    for (b1, b2) in burst_sizes() {
        let some: Vec<_> = (0..40).map(|_| accepted(&mut harness.rng, b1, b2, 3)).collect();
        plans.extend(some.into_iter().filter(|plan| plan.data_bits() == 0));
    }
    for plan in &plans {
        let len = Layout::Columns.sheet_len(plan);
        assert_eq!(harness.written_by_column(plan, &[]), (0, vec![0; len]));
        assert_eq!(harness.write_by_column(&plan.encode(), &[0], len), 12);
        for kind in KINDS {
            let sheet = sheet_in(Layout::Columns, plan, kind, &mut harness.rng);
            let (answer, [_, data]) = harness.columns_read(plan, &sheet);
            assert!(data.is_empty());
            tally.count(answer);
            assert_eq!(harness.read_by_column(&plan.encode(), &sheet, 1), 12);
        }
    }
    println!("{} plans without data", plans.len());
    assert!(plans.len() >= 10);
    tally.require("their sheets", &[(0..=0, 20), (13..=14, 3)]);
}

/// What the target, the sheet to be written and the data held does not matter: the same calls on buffers of every
/// filling. Sheets end within a byte, and the data too.
#[test]
fn all_bytes_are_written() {
    let mut harness = Harness::new(153);
    for plan in [powers_3x3(13, 11, CellOrder::Sheet, &mut harness.rng), plan_tall()] {
        let bytes = plan.encode();
        let data = random_data(&plan, &mut harness.rng);
        let (_, columns) = harness.written_by_column(&plan, &data);
        let (_, rows) = harness.turned_from(Layout::Columns, &plan, &columns);
        for held in 0..=255 {
            let library = &mut harness.library;
            let [mut written, mut turned] = [(); 2].map(|()| vec![held; columns.len()]);
            let (mut back, mut text) = (vec![held; rows.len()], vec![held; data.len()]);
            assert_eq!(library.write_in(Layout::Columns, &bytes, &data, &mut written), 0);
            assert_eq!(library.turn(Layout::Rows, &bytes, &rows, &mut turned), 0);
            assert_eq!(library.turn(Layout::Columns, &bytes, &columns, &mut back), 0);
            assert_eq!(library.read_in(Layout::Columns, &bytes, &mut turned, &mut text), 0);
            assert!(written == columns && turned == columns && back == rows && text == data);
        }
    }
}

/// A sheet that was read is read again: nothing is to be mended any more, refused sheets are refused again, and the
/// data are the same.
#[test]
fn read_again() {
    let mut harness = Harness::new(154);
    for (b1, b2) in burst_sizes() {
        for kind in [Kind::Written, Kind::Burst, Kind::Hopeless, Kind::Unused] {
            let plan = accepted(&mut harness.rng, b1, b2, 9);
            let mut sheet = sheet_in(Layout::Columns, &plan, kind, &mut harness.rng);
            if kind == Kind::Unused {
                set_unused_in(Layout::Columns, &plan, &mut sheet, &mut harness.rng);
            }
            let (first, [left, data]) = harness.columns_read(&plan, &sheet);
            let (second, [again, data_again]) = harness.columns_read(&plan, &left);
            let [first, second] = [first, second].map(Answer::unpack);
            assert_eq!((first.places(), [0; 6]), (second.places(), second.mended()));
            assert!(left == again && (first.is_refusal() || data == data_again));
        }
    }
}

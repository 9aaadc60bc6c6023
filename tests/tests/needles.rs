//! Sheets by columns by the thousands: of every size up to 24 × 24, thin ones, and full size; as they are written,
//! with bursts, with two, and such as need not be mendable, each beside the same cells by rows; turned there and
//! back, cell by cell.

use sheet_tests::answer::Answer;
use sheet_tests::compared::{house_by_call, Harness};
use sheet_tests::kinds::{sheet_of, Kind};
use sheet_tests::make::{
    accepted, burst_sizes, largest_4x4, least_1x1, powers_1x1, powers_3x3, CellOrder,
};
use sheet_tests::model::{by_columns, by_rows, cells, Layout};
use sheet_tests::pairs::{edge_bursts, hopeless};
use sheet_tests::plan::Plan;
use sheet_tests::scans::{every_burst, random_burst, random_data, random_sheet, turned};
use sheet_tests::tally::Tally;

/// 02 i): turned into the other layout and back, cell for cell, nothing is lost. Either sheet has each cell of the
/// other, found by its row and its column; and the library turns it back to the bytes that there were.
fn there_and_back(harness: &mut Harness, plan: &Plan, from: Layout, sheet: &[u8]) {
    let (answer, there) = harness.turned_from(from, plan, sheet);
    assert_eq!(answer, 0);
    for cell in cells(plan) {
        let [one, other] = [(from, sheet), (from.other(), &there[..])]
            .map(|(layout, sheet)| layout.cell(plan, sheet, cell));
        assert_eq!(one, other, "{cell:?} from {from:?} under {plan:?}");
    }
    let (answer, back) = harness.turned_from(from.other(), plan, &there);
    assert!(answer == 0 && back == sheet, "from {from:?} under {plan:?}");
}

/// 02 i): the sheet that is written by columns is the one that is written by rows, turned: by the model, and by the
/// library itself. Both are read as the data. The sheet by rows is handed back.
fn writes_alike(harness: &mut Harness, plan: &Plan, data: &[u8]) -> Vec<u8> {
    let (bytes, mut rows) = (plan.encode(), harness.rng.bytes(plan.sheet_len()));
    assert_eq!(harness.library.write(&bytes, data, &mut rows), 0);
    let (answer, columns) = harness.written_by_column(plan, data);
    assert!(answer == 0 && columns == by_columns(plan, &rows), "{plan:?}");
    assert_eq!(harness.turned_from(Layout::Rows, plan, &rows), (0, columns.clone()));
    assert_eq!(harness.turned_from(Layout::Columns, plan, &columns), (0, rows.clone()));
    assert_eq!(harness.columns_read(plan, &columns), (0, [columns, data.to_vec()]));
    rows
}

/// A written sheet: clean, with one burst, with two, and a random one. Each is read alike in both layouts, and turned
/// there and back.
fn all_alike(harness: &mut Harness, plan: &Plan) -> Tally {
    let mut tally = Tally::default();
    let data = random_data(plan, &mut harness.rng);
    let written = writes_alike(harness, plan, &data);
    let [one, two] = [(); 2].map(|()| random_burst(plan, &mut harness.rng));
    let blotted = turned(plan, &written, &one);
    let twice = turned(plan, &blotted, &two);
    let random = random_sheet(plan, &mut harness.rng);
    for sheet in [written, blotted, twice, random] {
        tally.count(harness.reads_alike(plan, &sheet));
        harness.columns_read(plan, &by_columns(plan, &sheet));
        there_and_back(harness, plan, Layout::Rows, &sheet);
    }
    tally
}

/// Every size from 1 × 2 and 3 × 1 up to 24 × 24, with bursts of one cell.
#[test]
fn every_size() {
    let mut harness = Harness::new(161);
    let (mut tally, mut sizes) = (Tally::default(), 0);
    for (n1, n2) in (1..=24).flat_map(|n1| (1..=24).map(move |n2| (n1, n2))) {
        if n2 == 1 && n1 <= 2 {
            continue;
        }
        let plan = least_1x1(n1, n2, CellOrder::Scattered, &mut harness.rng);
        tally.add(&all_alike(&mut harness, &plan));
        sizes += 1;
    }
    println!("{sizes} sizes");
    assert_eq!(sizes, 24 * 24 - 2);
    tally.require("their sheets, in both layouts", &[(0..=0, 1500), (14..=14, 100)]);
}

/// 1 × n and n × 1 for every n up to 80, and for some up to 698 and to 512: in one layout each cell has a byte, in the
/// other eight have one.
#[test]
fn thin_sheets() {
    let mut harness = Harness::new(162);
    let mut tally = Tally::default();
    let wide = (2..=80).chain((81..696).step_by(41)).chain(696..=698).map(|n2| (1, n2));
    let tall = (3..=80).chain((81..510).step_by(41)).chain(510..=512).map(|n1| (n1, 1));
    for (n1, n2) in wide.chain(tall) {
        let plan = least_1x1(n1, n2, CellOrder::Scattered, &mut harness.rng);
        let [rows, columns] = Layout::BOTH.map(|layout| layout.sheet_len(&plan));
        assert_eq!(
            [rows, columns],
            if n1 == 1 { [n2.div_ceil(8), n2] } else { [n1, n1.div_ceil(8)] }
        );
        tally.add(&all_alike(&mut harness, &plan));
    }
    tally.require("thin sheets, in both layouts", &[(0..=0, 500), (14..=14, 100)]);
}

/// Random plans of every burst size, and tables of powers whose sheets have several bytes either way.
#[test]
fn random_plans() {
    let mut harness = Harness::new(163);
    let (mut tally, mut plans) = (Tally::default(), 0);
    for (b1, b2) in burst_sizes() {
        for _ in 0..80 {
            let plan = accepted(&mut harness.rng, b1, b2, 20);
            tally.add(&all_alike(&mut harness, &plan));
            plans += 1;
        }
    }
    for _ in 0..100 {
        let (n1, n2) = (harness.rng.within(8, 90), harness.rng.within(7, 90));
        for order in [CellOrder::Sheet, CellOrder::Scattered, CellOrder::OddRows] {
            let plan = powers_3x3(n1, n2, order, &mut harness.rng);
            tally.add(&all_alike(&mut harness, &plan));
            plans += 1;
        }
    }
    println!("{plans} plans");
    tally.require("their sheets, in both layouts", &[(0..=0, 3000), (14..=14, 2000)]);
}

/// Sheets by columns of any bytes of the right form are turned by rows and back, and read as that sheet by rows is.
#[test]
fn from_columns() {
    let mut harness = Harness::new(164);
    let mut tally = Tally::default();
    for (b1, b2) in burst_sizes() {
        for _ in 0..30 {
            let plan = accepted(&mut harness.rng, b1, b2, 20);
            for kind in [Kind::Written, Kind::Burst, Kind::Hopeless] {
                let columns = by_columns(&plan, &sheet_of(&plan, kind, &mut harness.rng));
                there_and_back(&mut harness, &plan, Layout::Columns, &columns);
                tally.count(harness.reads_alike(&plan, &by_rows(&plan, &columns)));
            }
            let mut columns = harness.rng.bytes(Layout::Columns.sheet_len(&plan));
            for column in columns.chunks_mut(plan.column_len()) {
                column[plan.column_len() - 1] &= !Layout::Columns.unused_bits(&plan);
            }
            there_and_back(&mut harness, &plan, Layout::Columns, &columns);
            tally.count(harness.reads_alike(&plan, &by_rows(&plan, &columns)));
        }
    }
    tally.require("sheets by columns", &[(0..=0, 500), (14..=14, 500)]);
}

/// Every rectangle and every pattern in it on a written sheet of small plans: the sheet by columns, its data, the
/// number of cells and the smallest rectangle are given back.
#[test]
fn every_burst_of_small_plans() {
    let mut harness = Harness::new(165);
    let (mut plans, mut bursts) = (0, 0);
    for (b1, b2) in burst_sizes() {
        // The larger the burst, the more patterns there are, and the fewer plans are tried.
        let (count, more) = match b1 * b2 {
            1..=6 => (12, 7),
            7..=9 => (6, 3),
            10..=12 => (3, 2),
            _ => (1, 1),
        };
        for _ in 0..count {
            let plan = accepted(&mut harness.rng, b1, b2, more);
            let written = harness.written_accepted(plan);
            for cells in every_burst(&written.plan) {
                harness.mends_in(Layout::Columns, &written, &cells);
                bursts += 1;
            }
            plans += 1;
        }
    }
    println!("{bursts} bursts on sheets by columns of {plans} plans");
    assert!(plans >= 100 && bursts >= 50_000);
}

/// Full size, and sizes just below, so that columns end within a byte: bursts in all corners, at the edges and inside,
/// single cells; two bursts; a sheet that no burst mends; a random one.
#[test]
fn full_size() {
    let mut harness = Harness::new(166);
    let rng = &mut harness.rng;
    let mut tally = Tally::default();
    for plan in [
        house_by_call(),
        powers_1x1(CellOrder::Scattered, rng),
        largest_4x4(CellOrder::Scattered, rng),
        powers_3x3(511, 698, CellOrder::Scattered, rng),
        powers_3x3(505, 697, CellOrder::OddRows, rng),
    ] {
        let written = harness.written_accepted(plan);
        let plan = &written.plan;
        let random = random_burst(plan, &mut harness.rng);
        let corners = [(0, 0), (0, plan.n2 - 1), (plan.n1 - 1, 0), (plan.n1 - 1, plan.n2 - 1)];
        let single = corners.iter().map(|&cell| vec![cell]);
        for cells in edge_bursts(plan).into_iter().chain(single).chain([vec![], random]) {
            harness.mends_in(Layout::Columns, &written, &cells);
        }
        let lost = hopeless(plan, &mut harness.rng).expect("not every sheet can be mended");
        let two = turned(plan, &written.sheet, &corners);
        for sheet in [lost, two, random_sheet(plan, &mut harness.rng), written.sheet.clone()] {
            let answer = harness.reads_alike(plan, &sheet);
            let columns = by_columns(plan, &sheet);
            assert_eq!(harness.columns_read(plan, &columns).0, answer);
            there_and_back(&mut harness, plan, Layout::Rows, &sheet);
            there_and_back(&mut harness, plan, Layout::Columns, &columns);
            tally.count(answer);
        }
        assert!(writes_alike(&mut harness, plan, &written.data) == written.sheet);
        let other = random_data(plan, &mut harness.rng);
        writes_alike(&mut harness, plan, &other);
    }
    tally.require("full-size sheets, in both layouts", &[(0..=0, 5), (14..=14, 10)]);
}

/// What a scanner does that runs along the columns, at full size: a sheet that is written by columns has a burst,
/// is read by columns, turned by rows, altered there, turned back, and read by columns as the altered data.
#[test]
fn between_the_layouts() {
    let mut harness = Harness::new(167);
    let plan = house_by_call();
    let (bytes, data) = (plan.encode(), random_data(&plan, &mut harness.rng));
    let (_, written) = harness.written_by_column(&plan, &data);
    for position in [0, 697, 200_000, plan.data_bits() as u32 - 1] {
        let cells = random_burst(&plan, &mut harness.rng);
        let mut scan = written.clone();
        cells.iter().for_each(|&cell| Layout::Columns.turn_over(&plan, &mut scan, cell));
        let (answer, [mended, _]) = harness.columns_read(&plan, &scan);
        assert_eq!(Answer::unpack(answer).cells, cells.len() as u64);
        assert!(mended == written);
        let (_, rows) = harness.turned_from(Layout::Columns, &plan, &mended);
        let mut altered = rows;
        assert_eq!(harness.library.alter(&bytes, &mut altered, position), 0);
        let (_, columns) = harness.turned_from(Layout::Rows, &plan, &altered);
        let (answer, [_, text]) = harness.columns_read(&plan, &columns);
        let differ = text.iter().zip(&data).map(|(one, other)| (one ^ other).count_ones());
        assert_eq!((answer, differ.sum::<u32>()), (0, 1));
        assert_eq!(text[position as usize / 8] ^ data[position as usize / 8], 1 << (position % 8));
    }
}

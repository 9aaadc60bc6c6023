//! sheet_read_by_trial, case by case, beside the model's trial and beside sheet_read: sheets worked out by hand, the
//! order of the checks, every number, the places of unused bits, plans without data, what the buffers held, full size.

use sheet_tests::answer::Answer;
use sheet_tests::cases::{plan_s, plan_t, plan_tall, write_cases};
use sheet_tests::compared::{house_by_call, Harness};
use sheet_tests::damage::{alter_length, damaged};
use sheet_tests::ffi::Library;
use sheet_tests::kinds::{sheet_of, KINDS};
use sheet_tests::make::{
    accepted, burst_sizes, largest_4x4, least_1x1, no_data, powers_1x1, powers_3x3, CellOrder,
};
use sheet_tests::model::{self, Layout};
use sheet_tests::pairs::hopeless;
use sheet_tests::refused::{
    any_sheet, first_of, lengths, number_if, plans_and_answers, spoilt, spoilt_lines, unused,
};
use sheet_tests::scans::{burst, random_data, random_sheet, turned};
use sheet_tests::tally::Tally;
use sheet_tests::trials::{small, trial_cases};

/// Cases 2 to 7 of 01, and others by hand; what is refused keeps every byte.
#[test]
fn worked_sheets() {
    let mut library = Library::new(171);
    let (mut taken, mut refused) = (0, 0);
    let written = write_cases().into_iter().map(|(plan, data, sheet)| {
        let read = Some(([0; 6], sheet.clone(), data));
        (plan, sheet, read)
    });
    for (plan, before, expected) in trial_cases().into_iter().chain(written) {
        for held in [0x00, 0xaa, 0xff] {
            let (mut sheet, mut data) = (before.clone(), vec![held; plan.data_len()]);
            let answer = library.read_by_trial(&plan.encode(), &mut sheet, &mut data);
            let answer = Answer::unpack(answer);
            match &expected {
                Some((numbers, mended, text)) => {
                    assert_eq!((answer.places(), answer.mended()), ((0, 0, 0), *numbers));
                    assert_eq!((&sheet, &data), (mended, text));
                    taken += 1;
                }
                None => {
                    assert_eq!(answer, Answer::refusal(14, 0, 0));
                    assert_eq!((sheet, data), (before.clone(), vec![held; plan.data_len()]));
                    refused += 1;
                }
            }
        }
    }
    assert_eq!((taken, refused), (3 * 23, 3 * 7));
}

/// The first check that fails is told, whatever else is wrong: the plan's number before all others, then 11, 12, 13
/// and 14. A refusal changes nothing.
#[test]
fn order_of_the_checks() {
    let mut harness = Harness::new(172);
    let mut tally = Tally::default();
    let layout = Layout::Rows;
    for (bytes, of_the_plan, plan) in plans_and_answers() {
        let lost = hopeless(&plan, &mut harness.rng).expect("not every sheet can be mended");
        let light = vec![0; plan.sheet_len()];
        for sheet_len in lengths(layout, &plan) {
            let of_the_sheet = number_if(sheet_len != plan.sheet_len(), 11);
            for data_len in [plan.data_len(), 0, plan.data_len() + 1, plan.data_len() + 2] {
                let of_the_data = number_if(data_len != plan.data_len(), 12);
                for lines in spoilt_lines(layout, &plan) {
                    for (cells, mending) in [(&light, 0), (&lost, 14)] {
                        let mut sheet = cells.clone();
                        sheet.resize(sheet_len, 0);
                        let sheet = spoilt(layout, &plan, sheet, &lines);
                        let told = first_of(&[
                            of_the_plan,
                            of_the_sheet,
                            of_the_data,
                            unused(layout, &plan, &lines),
                            Answer::refusal(mending, 0, 0),
                        ]);
                        let answer = harness.read_by_trial(&bytes, &sheet, data_len);
                        assert_eq!(Answer::unpack(answer), told, "{sheet:x?}, {data_len}");
                        tally.count(answer);
                    }
                }
            }
        }
    }
    let least =
        [(0..=0, 3), (1..=10, 200), (23..=23, 200), (11..=11, 400), (12..=12, 70), (13..=13, 18)];
    tally.require("sheet_read_by_trial, more than one check fails", &least);
    assert_eq!(tally.met(14), tally.met(0));
    assert!((15..23).chain(24..32).all(|number| tally.met(number) == 0));
}

/// Every number: good and damaged plans, sheets of every kind, buffers of right and wrong lengths, unused bits set. No
/// other number is met.
#[test]
fn every_number() {
    let mut harness = Harness::new(173);
    let mut tally = Tally::default();
    for (b1, b2) in burst_sizes() {
        // A sheet that is refused with 14 has every pattern tried: with larger bursts there are fewer sheets.
        let (plans, sheets) = if b1 * b2 <= 9 { (40, 32) } else { (2, 12) };
        for _ in 0..plans {
            let plan = if b1 * b2 <= 9 {
                small(&mut harness.rng, b1, b2)
            } else {
                accepted(&mut harness.rng, b1, b2, 1)
            };
            for _ in 0..sheets {
                let rng = &mut harness.rng;
                let bytes = if rng.one_in(3) { damaged(&plan, rng) } else { plan.encode() };
                let sheet = any_sheet(Layout::Rows, &plan, rng);
                let mut data = random_data(&plan, rng);
                if rng.one_in(8) {
                    alter_length(&mut data, rng);
                }
                tally.count(harness.read_by_trial(&bytes, &sheet, data.len()));
            }
        }
    }
    tally.require(
        "sheet_read_by_trial",
        &[(0..=0, 4000), (1..=10, 50), (23..=23, 50), (11..=14, 400)],
    );
    assert!((15..23).chain(24..32).all(|number| tally.met(number) == 0));
}

/// An unused bit in each row of a sheet, and in two of them: the byte is told that comes first. Rows have one byte or
/// several. Where rows have no unused bits, any bytes are a sheet.
#[test]
fn places_of_unused_bits() {
    let mut harness = Harness::new(174);
    let mut told = 0;
    for (n1, n2) in [(3, 3), (9, 7), (5, 12), (4, 15), (2, 31), (1, 63), (8, 8), (1, 64), (7, 65)] {
        let plan = least_1x1(n1, n2, CellOrder::Scattered, &mut harness.rng);
        let spare = model::unused_bits(&plan).count_ones() as usize;
        for (row, bit) in (0..n1).flat_map(|row| (0..spare).map(move |bit| (row, bit))) {
            let end = |row: usize| (row + 1) * plan.row_len() - 1;
            let mut sheet = random_sheet(&plan, &mut harness.rng);
            sheet[end(row)] |= 0x80 >> bit;
            sheet[end(harness.rng.within(row, n1 - 1))] |= 0x80;
            let (answer, _) = harness.trial_read(&plan, &sheet);
            assert_eq!(Answer::unpack(answer), Answer::refusal(13, end(row), 0));
            told += 1;
        }
        for _ in 0..20 {
            let sheet = harness.rng.bytes(plan.sheet_len());
            let (answer, _) = harness.trial_read(&plan, &sheet);
            assert!(spare > 0 || answer & 31 != 13, "{n1} x {n2}");
        }
    }
    println!("{told} places of unused bits");
    assert_eq!(told, 3 * 5 + 9 + 5 * 4 + 4 + 2 + 1 + 7 * 7);
}

/// A plan without data: sheets are mended or refused, and the data buffer is empty.
#[test]
fn plans_without_data() {
    let mut harness = Harness::new(175);
    let (mut tally, mut plans) = (Tally::default(), vec![no_data()]);
    for (b1, b2) in burst_sizes().filter(|(b1, b2)| b1 * b2 <= 9) {
        let some: Vec<_> = (0..60).map(|_| accepted(&mut harness.rng, b1, b2, 3)).collect();
        plans.extend(some.into_iter().filter(|plan| plan.data_bits() == 0));
    }
    for plan in &plans {
        for kind in KINDS {
            let sheet = sheet_of(plan, kind, &mut harness.rng);
            let (answer, [_, data]) = harness.trial_read(plan, &sheet);
            assert!(data.is_empty());
            tally.count(answer);
            assert_eq!(harness.read_by_trial(&plan.encode(), &sheet, 1), 12);
        }
    }
    println!("{} plans without data", plans.len());
    assert!(plans.len() >= 10);
    tally.require("their sheets", &[(0..=0, 20), (13..=14, 3)]);
}

/// What the data held does not matter: it is written whole if the sheet is taken, and kept if not. And a sheet that was
/// read is read again, with nothing to be mended any more.
#[test]
fn what_the_data_held() {
    let mut harness = Harness::new(176);
    let of_3x3 = powers_3x3(8, 8, CellOrder::Sheet, &mut harness.rng);
    for plan in [plan_s(), plan_t(), plan_tall(), of_3x3] {
        let bytes = plan.encode();
        let data = random_data(&plan, &mut harness.rng);
        let written = model::write_sheet(&plan, &data);
        let last = burst(&plan, plan.n1 - plan.b1, plan.n2 - plan.b2, u32::MAX);
        let lost = hopeless(&plan, &mut harness.rng).expect("not every sheet can be mended");
        for held in 0..=255 {
            let library = &mut harness.library;
            let (mut scan, mut text) = (turned(&plan, &written, &last), vec![held; data.len()]);
            let answer = library.read_by_trial(&bytes, &mut scan, &mut text);
            assert_eq!(answer, model::smallest_rectangle(&last).pack());
            assert!(scan == written && text == data, "the data held {held:#x}");
            text.fill(held);
            assert_eq!(library.read_by_trial(&bytes, &mut scan, &mut text), 0);
            assert!(scan == written && text == data, "the data held {held:#x}");
            let (mut scan, mut text) = (lost.clone(), vec![held; data.len()]);
            assert_eq!(library.read_by_trial(&bytes, &mut scan, &mut text), 14);
            assert!(scan == lost && text == vec![held; data.len()], "the data held {held:#x}");
        }
    }
}

/// The call itself has no limit. At full size, where the patterns are few: every one of bursts of one cell; of larger
/// bursts those in the first rectangle, of which the full one comes last there.
#[test]
fn full_size() {
    let mut harness = Harness::new(177);
    let mut tally = Tally::default();
    let single = powers_1x1(CellOrder::Scattered, &mut harness.rng);
    let of_4x4 = largest_4x4(CellOrder::Scattered, &mut harness.rng);
    for plan in [single, house_by_call(), of_4x4] {
        let data = random_data(&plan, &mut harness.rng);
        let written = model::write_sheet(&plan, &data);
        let mut bursts = vec![vec![], burst(&plan, 0, 0, 1), burst(&plan, 0, 0, u32::MAX)];
        if plan.b1 == 1 {
            let corners = [(0, plan.n2 - 1), (plan.n1 - 1, 0), (plan.n1 - 1, plan.n2 - 1)];
            bursts.extend(corners.map(|corner| vec![corner]));
            let lost = hopeless(&plan, &mut harness.rng).expect("not every sheet can be mended");
            tally.count(harness.trial_read_of_large(&plan, &lost).0);
        }
        for cells in bursts {
            let scan = turned(&plan, &written, &cells);
            let (answer, [sheet, text]) = harness.trial_read_of_large(&plan, &scan);
            assert_eq!(answer, model::smallest_rectangle(&cells).pack());
            assert!(sheet == written && text == data, "{cells:?}");
            tally.count(answer);
        }
    }
    tally.require("at full size, by trial", &[(0..=0, 12), (14..=14, 1)]);
}

//! What sheet_write_by_column, sheet_read_by_column, sheet_to_columns and sheet_to_rows turn back, beside the model:
//! the order of the checks, every number, every length, the places of unused bits.

use sheet_tests::answer::Answer;
use sheet_tests::compared::Harness;
use sheet_tests::damage::{alter_length, damaged, set_unused_of_data};
use sheet_tests::make::{accepted, burst_sizes, least_1x1, plans_of_many_sizes, CellOrder};
use sheet_tests::model::Layout;
use sheet_tests::refused::{
    any_sheet, first_of, lengths, number_if, plans_and_answers, spoilt, spoilt_lines, unused,
};
use sheet_tests::scans::{random_data, random_sheet};
use sheet_tests::tally::Tally;

/// The first check that fails is told, whatever else is wrong: the plan's number before all others, then 11, 12 and
/// 13. A refusal changes nothing.
#[test]
fn order_of_the_checks() {
    let mut harness = Harness::new(145);
    let (mut writes, mut reads) = (Tally::default(), Tally::default());
    let layout = Layout::Columns;
    for (bytes, of_the_plan, plan) in plans_and_answers() {
        for sheet_len in lengths(layout, &plan) {
            let of_the_sheet = number_if(sheet_len != layout.sheet_len(&plan), 11);
            let right = plan.data_len();
            for data_len in [right, 0, right + 1, right + 2] {
                let of_the_data = number_if(data_len != right, 12);
                let of_its_bits =
                    [(0, Answer::default()), (0x80, Answer::refusal(13, right - 1, 0))];
                for (last, bits) in of_its_bits {
                    let mut data = vec![0; data_len];
                    if let Some(byte) = data.last_mut() {
                        *byte = last;
                    }
                    let told = first_of(&[of_the_plan, of_the_sheet, of_the_data, bits]);
                    let answer = harness.write_by_column(&bytes, &data, sheet_len);
                    assert_eq!(Answer::unpack(answer), told, "{sheet_len}, {data:x?}");
                    writes.count(answer);
                }
                for lines in spoilt_lines(layout, &plan) {
                    let sheet = spoilt(layout, &plan, vec![0; sheet_len], &lines);
                    let bits = unused(layout, &plan, &lines);
                    let told = first_of(&[of_the_plan, of_the_sheet, of_the_data, bits]);
                    let answer = harness.read_by_column(&bytes, &sheet, data_len);
                    assert_eq!(Answer::unpack(answer), told, "{sheet:x?}, {data_len}");
                    reads.count(answer);
                }
            }
        }
    }
    let least =
        [(0..=0, 3), (1..=10, 50), (23..=23, 50), (11..=11, 100), (12..=12, 15), (13..=13, 3)];
    writes.require("sheet_write_by_column, more than one check fails", &least);
    reads.require("sheet_read_by_column, more than one check fails", &least);
}

/// The same for turning: the plan's number, 11 for the source, 11 for the target, 13 for the source. What the target
/// held is no matter: an unused bit of it that is 1 turns nothing back.
#[test]
fn order_of_the_checks_of_turning() {
    let mut harness = Harness::new(146);
    let mut tally = Tally::default();
    for (bytes, of_the_plan, plan) in plans_and_answers() {
        for from in Layout::BOTH {
            let to = from.other();
            for source_len in lengths(from, &plan) {
                let of_the_source = number_if(source_len != from.sheet_len(&plan), 11);
                for target_len in lengths(to, &plan) {
                    let of_the_target = number_if(target_len != to.sheet_len(&plan), 11);
                    for lines in spoilt_lines(from, &plan) {
                        let source = spoilt(from, &plan, vec![0; source_len], &lines);
                        let bits = unused(from, &plan, &lines);
                        let told = first_of(&[of_the_plan, of_the_source, of_the_target, bits]);
                        let answer = harness.turn(from, &bytes, &source, target_len);
                        let what = format!("{from:?}, {source:x?} to {target_len}");
                        assert_eq!(Answer::unpack(answer), told, "{what}");
                        tally.count(answer);
                        let mut target = vec![0xff; target_len];
                        let again = harness.library.turn(from, &bytes, &source, &mut target);
                        assert_eq!(again, answer, "{what}, whatever it held");
                    }
                }
            }
        }
    }
    let least = [(0..=0, 6), (1..=10, 300), (23..=23, 300), (11..=11, 1000), (13..=13, 18)];
    tally.require("turning, more than one check fails", &least);
}

/// Every length of a sheet up to beyond the right one, that of the other layout, with the sizes taken for each other,
/// and such as differ from it by 256 and by 65,536: 11, for each sheet of each call.
#[test]
fn every_length() {
    let mut harness = Harness::new(147);
    let mut tally = Tally::default();
    for plan in plans_of_many_sizes(&mut harness.rng) {
        let (bytes, light) = (plan.encode(), vec![0; plan.data_len()]);
        for from in Layout::BOTH {
            let [right, other] = [from, from.other()].map(|layout| layout.sheet_len(&plan));
            let far = [other, plan.n1 * plan.column_len(), plan.n2 * plan.row_len()];
            let cut = [right + (1 << 8), right + (1 << 16)];
            for len in (0..right + 10).chain(far).chain(cut).filter(|&len| len != right) {
                let sheet = vec![0; len];
                let mut answers = vec![
                    harness.library.turn(from, &bytes, &sheet, &mut vec![0xaa; other]),
                    harness.library.turn(from.other(), &bytes, &vec![0; other], &mut sheet.clone()),
                ];
                if from == Layout::Columns {
                    let (mut sheet, mut data) = (sheet.clone(), light.clone());
                    answers.push(harness.library.write_in(from, &bytes, &light, &mut sheet));
                    answers.push(harness.library.read_in(from, &bytes, &mut sheet, &mut data));
                }
                assert!(answers.iter().all(|&answer| answer == 11), "{len}, not {right}: {plan:?}");
                answers.into_iter().for_each(|answer| tally.count(answer));
            }
        }
    }
    tally.require("sheets of other lengths", &[(11..=11, 5000)]);
}

/// Every number of writing and reading: good and damaged plans, sheets of every kind, buffers of right and wrong
/// lengths, unused bits set. No other number is met.
#[test]
fn every_number() {
    let mut harness = Harness::new(148);
    let (mut writes, mut reads) = (Tally::default(), Tally::default());
    for (b1, b2) in burst_sizes() {
        for _ in 0..50 {
            let plan = accepted(&mut harness.rng, b1, b2, 12);
            for _ in 0..32 {
                let rng = &mut harness.rng;
                let bytes = if rng.one_in(3) { damaged(&plan, rng) } else { plan.encode() };
                let sheet = any_sheet(Layout::Columns, &plan, rng);
                let mut data = random_data(&plan, rng);
                if rng.one_in(6) {
                    set_unused_of_data(&plan, &mut data, rng);
                }
                if rng.one_in(8) {
                    alter_length(&mut data, rng);
                }
                writes.count(harness.write_by_column(&bytes, &data, sheet.len()));
                reads.count(harness.read_by_column(&bytes, &sheet, data.len()));
            }
        }
    }
    writes.require(
        "sheet_write_by_column",
        &[(0..=0, 5000), (1..=10, 50), (23..=23, 50), (11..=13, 500)],
    );
    reads.require(
        "sheet_read_by_column",
        &[(0..=0, 5000), (1..=10, 50), (23..=23, 50), (11..=14, 500)],
    );
    assert!((14..23).chain(24..32).all(|number| writes.met(number) == 0));
    assert!((15..23).chain(24..32).all(|number| reads.met(number) == 0));
}

/// Every number of turning, either way; and 11 where the source alone or the target alone has another length. No
/// other number is met: not 12, and not 14, though some of the sheets cannot be mended.
#[test]
fn every_number_of_turning() {
    let mut harness = Harness::new(149);
    for from in Layout::BOTH {
        let mut tally = Tally::default();
        let (mut of_source, mut of_target) = (Tally::default(), Tally::default());
        for (b1, b2) in burst_sizes() {
            for _ in 0..40 {
                let plan = accepted(&mut harness.rng, b1, b2, 12);
                for _ in 0..32 {
                    let rng = &mut harness.rng;
                    let bytes = if rng.one_in(3) { damaged(&plan, rng) } else { plan.encode() };
                    let source = any_sheet(from, &plan, rng);
                    let target = any_sheet(from.other(), &plan, rng);
                    let answer = harness.turn(from, &bytes, &source, target.len());
                    assert_eq!(Answer::unpack(answer).mended(), [0; 6]);
                    tally.count(answer);
                    let both = [(from, source.len()), (from.other(), target.len())];
                    match both.map(|(layout, len)| len == layout.sheet_len(&plan)) {
                        [false, true] => of_source.count(answer),
                        [true, false] => of_target.count(answer),
                        _ => {}
                    }
                }
            }
        }
        let what = format!("turning from {from:?}");
        tally.require(
            &what,
            &[(0..=0, 5000), (1..=10, 50), (23..=23, 50), (11..=11, 1000), (13..=13, 500)],
        );
        assert!([12].into_iter().chain(14..23).chain(24..32).all(|number| tally.met(number) == 0));
        of_source.require("the source alone has another length", &[(11..=11, 500)]);
        of_target.require("the target alone has another length", &[(11..=11, 500)]);
    }
}

/// An unused bit in each line of a sheet, and in two of them: the byte is told that comes first in the sheet that is
/// handed over, as it lies there. Lines have one byte or several, and there are up to 698 of them.
#[test]
fn places_of_unused_bits() {
    let mut harness = Harness::new(150);
    let mut told = 0;
    for (n1, n2, step) in [(7, 12, 1), (9, 15, 1), (17, 12, 1), (65, 41, 1), (511, 698, 31)] {
        let plan = least_1x1(n1, n2, CellOrder::Scattered, &mut harness.rng);
        for layout in Layout::BOTH {
            let unused = layout.unused_bits(&plan).count_ones() as usize;
            let good = layout.of_rows(&plan, random_sheet(&plan, &mut harness.rng));
            let lines = layout.lines(&plan);
            for line in (0..lines).step_by(step).chain([lines - 1]) {
                let end = |line: usize| (line + 1) * layout.line_len(&plan) - 1;
                let refusal = Answer::refusal(13, end(line), 0);
                let later = harness.rng.within(line, lines - 1);
                for bit in [0, unused - 1] {
                    let mut sheet = good.clone();
                    sheet[end(line)] |= 0x80 >> bit;
                    sheet[end(later)] |= 0x80;
                    let (answer, _) = harness.turned_from(layout, &plan, &sheet);
                    assert_eq!(Answer::unpack(answer), refusal);
                    if layout == Layout::Columns {
                        let (answer, _) = harness.columns_read(&plan, &sheet);
                        assert_eq!(Answer::unpack(answer), refusal);
                    }
                    told += 1;
                }
            }
        }
    }
    println!("{told} places of unused bits");
    assert!(told >= 400);
}

/// Where the number of rows is a multiple of 8 no bit of a sheet by columns is unused, and any bytes are a sheet;
/// where that of the columns is, any bytes are one by rows.
#[test]
fn no_unused_bits() {
    let mut harness = Harness::new(151);
    for (n1, n2) in [(8, 5), (5, 8), (16, 23), (23, 16), (64, 9), (9, 64), (24, 24)] {
        let plan = least_1x1(n1, n2, CellOrder::Scattered, &mut harness.rng);
        for layout in Layout::BOTH {
            let has_unused = layout.other().lines(&plan) % 8 != 0;
            for _ in 0..20 {
                let sheet = harness.rng.bytes(layout.sheet_len(&plan));
                let (answer, _) = harness.turned_from(layout, &plan, &sheet);
                assert!(has_unused || answer == 0, "{n1} x {n2}");
                if layout == Layout::Columns {
                    let (answer, _) = harness.columns_read(&plan, &sheet);
                    assert!(has_unused || Answer::unpack(answer).number != 13, "{n1} x {n2}");
                }
            }
        }
    }
}

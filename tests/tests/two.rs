//! sheet_read_two and sheet_first_difference, case by case, beside the model: pairs of scans worked out by
//! hand, every pair of the smallest plans, every number for each scan, the order of the checks, places of
//! unused bits, scans in one buffer, and the row where two scans first differ.

use std::ops::Range;

use sheet_tests::answer::Answer;
use sheet_tests::cases::{
    plan_for_each_number, plan_s, plan_t, plan_two_rows, read_cases, two_cases,
};
use sheet_tests::compared::{Harness, Written};
use sheet_tests::damage::{alter_length, damaged, set_unused_of_sheet};
use sheet_tests::ffi::{first_difference, part, read_two};
use sheet_tests::make::{accepted, burst_sizes, no_data, powers_3x3, CellOrder};
use sheet_tests::model;
use sheet_tests::pairs::{difference_of, row_places};
use sheet_tests::plan::Plan;
use sheet_tests::rng::Rng;
use sheet_tests::scans::{every_sheet, random_burst, random_sheet, turned};
use sheet_tests::tally::Tally;

/// S, T and a plan with bursts of two rows: what was worked out by hand.
#[test]
fn worked_pairs() {
    let mut harness = Harness::new(81);
    for (plan, [first, second], read, row) in two_cases() {
        for held in [0x00, 0xaa, 0xff] {
            let mut data = [held];
            let answer = harness.library.read_two(&plan.encode(), &first, &second, &mut data);
            let told = Answer::refusal(read.err().unwrap_or(0), 0, 0);
            assert_eq!(Answer::unpack(answer), told, "{first:x?} {second:x?}");
            assert_eq!(data, [read.unwrap_or(held)], "{first:x?} {second:x?}");
        }
        let difference = harness.library.first_difference(&plan.encode(), &first, &second);
        let places = row.map_or(0..0, |row| row_places(&plan, row));
        assert_eq!(difference, difference_of(&places), "{first:x?} {second:x?}");
    }
}

/// Every pair of sheets of the smallest plans. Many differ and hold the same data; where there is no data,
/// none gives 19.
#[test]
fn every_pair_of_the_smallest_plans() {
    let mut harness = Harness::new(82);
    let mut tally = Tally::default();
    let (mut alike, mut one_of_two) = (0, 0);
    for plan in [plan_s(), plan_t(), plan_two_rows(), no_data()] {
        let mended = |scan: Vec<u8>| (model::mended_data(&plan, &scan), scan);
        let scans: Vec<_> = every_sheet(&plan).map(mended).collect();
        for (one, first) in &scans {
            for (other, second) in &scans {
                let (answer, data) = harness.both_read(&plan, first, second);
                let expected = match (one, other) {
                    (None, None) => 14,
                    (Some(one), Some(other)) if one != other => 19,
                    _ => 0,
                };
                assert_eq!(Answer::unpack(answer), Answer::refusal(expected, 0, 0));
                assert!(answer != 0 || Some(&data) == one.as_ref().or(other.as_ref()));
                alike += usize::from(answer == 0 && first != second && one == other);
                one_of_two += usize::from(answer == 0 && one != other);
                let row = harness.differing_row(&plan, first, second);
                assert_eq!(row.is_empty(), first == second);
                tally.count(answer);
            }
        }
    }
    println!("{alike} pairs differ and hold the same data; of {one_of_two} only one can be mended");
    assert!(alike >= 1000 && one_of_two >= 10_000);
    let least = [(0..=0, 50_000), (14..=14, 10_000), (19..=19, 50_000)];
    tally.require("sheet_read_two, the smallest plans", &least);
}

/// A plan that holds no data: taken where either scan can be mended, and 19 is never met. Of its sheets
/// 00, 01, 02 and 03 the last cannot be mended.
#[test]
fn no_data_to_differ() {
    let mut harness = Harness::new(83);
    let bytes = no_data().encode();
    for first in 0..4u8 {
        for second in 0..4u8 {
            let answer = harness.read_two(&bytes, &[first], &[second], 0);
            assert_eq!(answer, if (first, second) == (3, 3) { 14 } else { 0 });
            assert_eq!(harness.read_two(&bytes, &[first], &[second], 1), 12);
            let row = harness.first_difference(&bytes, &[first], &[second]);
            assert_eq!(row, if first == second { 0..0 } else { 0..1 });
        }
        for (one, other) in [(&[first][..], &[0x04][..]), (&[0x04], &[first])] {
            assert_eq!(harness.read_two(&bytes, one, other, 0), 13);
            assert!(harness.first_difference(&bytes, one, other).is_empty());
        }
    }
}

/// What is wrong with a scan.
#[derive(Clone, Copy, PartialEq)]
enum Fault {
    Length,
    UnusedBit,
    Neither,
}

/// A scan of the written sheet: as written, with a burst, or random; sometimes of another length, or with
/// an unused bit that is 1.
fn any_scan(written: &Written, rng: &mut Rng) -> Vec<u8> {
    let Written { plan, sheet, .. } = written;
    let mut scan = match rng.below(6) {
        0 => random_sheet(plan, rng),
        1 | 2 => turned(plan, sheet, &random_burst(plan, rng)),
        _ => sheet.clone(),
    };
    if rng.one_in(6) {
        set_unused_of_sheet(plan, &mut scan, rng);
    }
    if rng.one_in(6) {
        alter_length(&mut scan, rng);
    }
    scan
}

fn fault(plan: &Plan, scan: &[u8]) -> Fault {
    let ends = || scan.chunks(plan.row_len()).map(|row| row[row.len() - 1]);
    if scan.len() != plan.sheet_len() {
        Fault::Length
    } else if ends().any(|end| end & model::unused_bits(plan) != 0) {
        Fault::UnusedBit
    } else {
        Fault::Neither
    }
}

/// Every number, and 11 and 13 for each scan: good and damaged plans, scans and data of right and wrong
/// lengths, unused bits set, scans as written, with bursts, random, and of other sheets. No other number is
/// met. Where the plan or a scan is turned back no row is told.
#[test]
fn every_number() {
    let mut harness = Harness::new(84);
    let (mut first_tally, mut second_tally) = (Tally::default(), Tally::default());
    let (mut tally, mut rows) = (Tally::default(), 0);
    for (b1, b2) in burst_sizes() {
        for _ in 0..50 {
            let plan = accepted(&mut harness.rng, b1, b2, 8);
            let written = harness.written(plan.clone());
            let other = harness.written(plan);
            let plan = &written.plan;
            for _ in 0..32 {
                let rng = &mut harness.rng;
                let bytes = if rng.one_in(3) { damaged(plan, rng) } else { written.bytes.clone() };
                let of_second = if rng.one_in(4) { &other } else { &written };
                let (first, second) = (any_scan(&written, rng), any_scan(of_second, rng));
                let mut data = vec![0; plan.data_len()];
                if rng.one_in(8) {
                    alter_length(&mut data, rng);
                }
                let answer = harness.read_two(&bytes, &first, &second, data.len());
                tally.count(answer);
                match fault(plan, &first) {
                    Fault::Neither => second_tally.count(answer),
                    _ if fault(plan, &second) == Fault::Neither => first_tally.count(answer),
                    _ => {}
                }
                rows += usize::from(!harness.first_difference(&bytes, &first, &second).is_empty());
            }
        }
    }
    let least = [(0..=0, 1000), (1..=14, 100), (23..=23, 100), (19..=19, 100)];
    tally.require("sheet_read_two", &least);
    let each = [(11..=11, 300), (13..=13, 200)];
    first_tally.require("the first scan alone is wrong", &each);
    second_tally.require("the second scan alone is wrong, or neither", &each);
    assert!((15..19).chain(20..23).chain(24..32).all(|number| tally.met(number) == 0));
    println!("{rows} rows that differ");
    assert!(rows >= 1000);
}

/// A scan under S, and what is told of its length and of its unused bits.
type Form = (&'static [u8], bool, Option<usize>);

const FORMS: [Form; 11] = [
    (&[0x03, 0x03, 0x00], true, None),
    (&[0x03, 0x03, 0x01], true, None),
    (&[0x05, 0x05, 0x00], true, None),
    (&[0x03, 0x00, 0x00], true, None),
    (&[0x03, 0x03], false, None),
    (&[0x03, 0x0b, 0x00, 0x00], false, None),
    (&[], false, None),
    (&[0x0b, 0x03, 0x00], true, Some(0)),
    (&[0x03, 0x83, 0x40], true, Some(1)),
    (&[0x05, 0x05, 0x10], true, Some(2)),
    (&[0x03, 0x20, 0x00], true, Some(1)),
];

/// The first check that fails is told, whatever else is wrong: the plan's number before all others, then
/// 11 for either scan, then 12, then 13 with the byte of the first scan, then with that of the second, then
/// 14 or 19. A refusal changes nothing. The part is empty where a check fails but 12, 14 and 19.
#[test]
fn order_of_the_checks() {
    let mut harness = Harness::new(85);
    let mut tally = Tally::default();
    let number = |fails: bool, number| Answer::refusal(if fails { number } else { 0 }, 0, 0);
    let unused =
        |byte: Option<usize>| byte.map_or(Answer::default(), |p| Answer::refusal(13, p, 0));
    for (bytes, of_the_plan) in plan_for_each_number() {
        for (first, first_length, first_byte) in FORMS {
            for (second, second_length, second_byte) in FORMS {
                let lengths = number(!first_length || !second_length, 11);
                let bits = [unused(first_byte), unused(second_byte)];
                for data_len in [0, 1, 2] {
                    let of_the_data = number(data_len != 1, 12);
                    let all = [of_the_plan, lengths, of_the_data, bits[0], bits[1]];
                    let answer = harness.read_two(&bytes, first, second, data_len);
                    if let Some(told) = all.into_iter().find(|told| told.is_refusal()) {
                        assert_eq!(Answer::unpack(answer), told, "{first:x?} {second:x?}");
                    } else {
                        let told = two_of_s(first, second);
                        assert_eq!(answer, told, "{first:x?} {second:x?}");
                    }
                    tally.count(answer);
                }
                let all = [of_the_plan, lengths, bits[0], bits[1]];
                let none = all.into_iter().any(|told| told.is_refusal()) || first == second;
                let row = harness.first_difference(&bytes, first, second);
                assert_eq!(row.is_empty(), none, "{first:x?} {second:x?}");
            }
        }
    }
    let least = [
        (0..=0, 9),
        (1..=10, 300),
        (23..=23, 300),
        (11..=11, 100),
        (12..=12, 100),
        (13..=13, 40),
        (14..=14, 1),
        (19..=19, 4),
    ];
    tally.require("sheet_read_two, more than one check fails", &least);
}

/// What becomes of two scans of the right form among `FORMS`: 03 03 00 and 03 03 01 hold data 02, 05 05 00
/// holds 01, and 03 00 00 cannot be mended.
fn two_of_s(first: &[u8], second: &[u8]) -> u64 {
    let data = |scan: &[u8]| match scan {
        [0x03, 0x03, _] => Some(2),
        [0x05, 0x05, _] => Some(1),
        _ => None,
    };
    match (data(first), data(second)) {
        (None, None) => 14,
        (Some(one), Some(other)) if one != other => 19,
        _ => 0,
    }
}

/// An unused bit in each row of either scan, and in a row of each: the byte is told that comes first in the
/// first scan, and only if there is none, in the second. Rows have one byte or several.
#[test]
fn places_of_unused_bits() {
    let mut harness = Harness::new(86);
    let mut both = 0;
    for n2 in [7, 9, 15, 17, 31, 63, 65] {
        let plan = powers_3x3(12, n2, CellOrder::Scattered, &mut harness.rng);
        let Written { plan, bytes, sheet, .. } = harness.written(plan);
        let spoilt = |row: usize, bit: usize| {
            let mut scan = sheet.clone();
            scan[(row + 1) * plan.row_len() - 1] |= 0x80 >> bit;
            scan
        };
        let unused = 8 * plan.row_len() - n2;
        let end = |row: usize| Answer::refusal(13, (row + 1) * plan.row_len() - 1, 0).pack();
        for row in 0..plan.n1 {
            for bit in [0, unused - 1] {
                let scan = spoilt(row, bit);
                assert_eq!(harness.both_read(&plan, &scan, &sheet).0, end(row));
                assert_eq!(harness.both_read(&plan, &sheet, &scan).0, end(row));
                assert!(harness.differing_row(&plan, &scan, &sheet).is_empty());
                assert!(harness.differing_row(&plan, &sheet, &scan).is_empty());
                assert!(harness.differing_row(&plan, &scan, &scan).is_empty());
            }
            for other in 0..plan.n1 {
                let (first, second) = (spoilt(row, 0), spoilt(other, unused - 1));
                assert_eq!(harness.both_read(&plan, &first, &second).0, end(row));
                assert_eq!(harness.read_two(&bytes, &first, &second, plan.data_len() + 1), 12);
                assert!(harness.differing_row(&plan, &first, &second).is_empty());
                both += 1;
            }
        }
    }
    println!("{both} pairs with an unused bit in each scan");
    assert_eq!(both, 7 * 12 * 12);
}

/// The sheets that 01 reads with something to mend, or not at all, beside each other.
#[test]
fn worked_sheets_beside_each_other() {
    let mut harness = Harness::new(87);
    let mut tally = Tally::default();
    for (plan, first, one) in read_cases() {
        for (_, second, other) in read_cases().into_iter().filter(|(other, ..)| *other == plan) {
            let (answer, data) = harness.both_read(&plan, &first, &second);
            let given = one.as_ref().or(other.as_ref());
            assert_eq!(answer, if given.is_some() { 0 } else { 14 });
            assert!(given.is_none_or(|(_, _, text)| data == *text));
            tally.count(answer);
        }
    }
    tally.require("sheets of document 01", &[(0..=0, 10), (14..=14, 8)]);
}

/// Two scans in one buffer, bare: the same bytes twice; and a film of one row more, once from its first row
/// and once from its second, either way round. The film keeps its bytes.
#[test]
fn scans_in_one_buffer() {
    let mut harness = Harness::new(88);
    let mut overlapping = 0;
    for (b1, b2) in burst_sizes() {
        for _ in 0..8 {
            let plan = accepted(&mut harness.rng, b1, b2, 10);
            let Written { plan, bytes, sheet, .. } = harness.written(plan);
            let len = sheet.len();
            let scan = turned(&plan, &sheet, &random_burst(&plan, &mut harness.rng));
            let mut film = scan.clone();
            film.extend(&scan[..plan.row_len()]);
            for (first, second) in [(0..len, 0..len), later(&plan), (later(&plan).1, 0..len)] {
                let (first, second) = (&film[first], &film[second]);
                let held = harness.rng.bytes(plan.data_len());
                let (mut data, mut expected) = (held.clone(), held);
                let before = film.clone();
                let answer = read_two(&bytes, first, second, &mut data, false);
                let told = model::read_two_accepted(&plan, first, second, &mut expected);
                assert_eq!(Answer::unpack(answer), told);
                assert!(data == expected && film == before);
                let row = model::first_difference_accepted(&plan, first, second);
                let difference = first_difference(&bytes, first, second, false);
                let lies = part(second, difference);
                assert_eq!(lies.as_ptr_range(), second[row].as_ptr_range());
                assert!(film == before);
                overlapping += usize::from(!lies.is_empty());
            }
        }
    }
    println!("{overlapping} overlapping scans that differ");
    assert!(overlapping >= 200);
}

/// Where a scan lies in a film of one row more: at its start, and one row later.
fn later(plan: &Plan) -> (Range<usize>, Range<usize>) {
    (0..plan.sheet_len(), plan.row_len()..plan.sheet_len() + plan.row_len())
}

/// Refusals of the call that finds the row: each number of the plan, 11 and 13 for either scan. All are the
/// empty part, where the scans differ and where they do not; the same scans under S tell of a row.
#[test]
fn no_part_where_something_is_turned_back() {
    let mut harness = Harness::new(89);
    let (good, other) = (&[0x03, 0x03, 0x00][..], &[0x03, 0x03, 0x01][..]);
    let mut refused = 0;
    for (bytes, of_the_plan) in plan_for_each_number() {
        let row = harness.first_difference(&bytes, good, other);
        assert_eq!(row, if of_the_plan.is_refusal() { 0..0 } else { 2..3 });
        refused += usize::from(of_the_plan.is_refusal());
    }
    assert!(refused >= 10);
    let bytes = plan_s().encode();
    let wrong: [&[u8]; 8] = [
        &[],
        &[0x03],
        &[0x03, 0x03],
        &[0x01, 0x03, 0x00, 0x00],
        &[0x08, 0x03, 0x00],
        &[0x03, 0x13, 0x00],
        &[0x03, 0x03, 0x80],
        &[0xff, 0xff, 0xff],
    ];
    for scan in wrong {
        for (first, second) in [(scan, good), (good, scan), (scan, scan), (other, scan)] {
            assert!(harness.first_difference(&bytes, first, second).is_empty(), "{scan:x?}");
        }
    }
}

//! sheet_read_stack, case by case, beside the model: stacks worked out by hand, no sheets, every number and the
//! order of the checks, every kind of bad header, refused sheets at every place, every sheet of the smallest
//! plans, places of unused bits.

use sheet_tests::answer::Answer;
use sheet_tests::cases::{plan_for_each_number, plan_s, plan_t, plan_two_rows, stack_cases};
use sheet_tests::compared::Harness;
use sheet_tests::damage::{alter_length, damaged};
use sheet_tests::kinds::{sheet_of, Kind};
use sheet_tests::make::{accepted, burst_sizes, no_data, powers_3x3, CellOrder};
use sheet_tests::model::{self, NUMBERS_LEN};
use sheet_tests::pairs::hopeless;
use sheet_tests::plan::Plan;
use sheet_tests::scans::{every_sheet, random_burst, turned};
use sheet_tests::stacks::{bad_stacks, places, random_rooms, stack_of, told_of, Lent};
use sheet_tests::tally::Tally;

/// S and T: what was worked out by hand, with the numbers and the data of refused sheets whatever they held.
#[test]
fn worked_stacks() {
    let mut harness = Harness::new(111);
    for (plan, [stack, numbers, data], [stack_after, numbers_after, data_after]) in stack_cases() {
        for held in [0x00, 0xbb, 0xff] {
            let kept = |byte: &u8| if *byte == 0xbb { held } else { *byte };
            let mut lent = Lent {
                stack: stack.clone(),
                numbers: vec![held; numbers.len()],
                data: vec![held; data.len()],
            };
            let answer = harness.library.read_stack(&plan.encode(), &mut lent);
            assert_eq!(answer, 0, "{stack:x?}");
            assert_eq!((&lent.stack, &lent.numbers), (&stack_after, &numbers_after));
            assert_eq!(lent.data, data_after.iter().map(kept).collect::<Vec<_>>());
        }
    }
}

/// A stack of no sheets is taken under every plan, and asks for empty buffers.
#[test]
fn no_sheets() {
    let mut harness = Harness::new(112);
    for plan in [plan_s(), plan_t(), plan_two_rows(), no_data()] {
        for (stack, numbers_len, data_len, number) in [
            (&[0, 0][..], 0, 0, 0),
            (&[0, 0], 1, 0, 21),
            (&[0, 0], 16, 1, 21),
            (&[0, 0], 0, 1, 12),
            (&[0, 0, 0], 0, 0, 20),
            (&[0], 0, 0, 20),
            (&[], 0, 0, 20),
            (&[1, 0], 0, 0, 20),
            (&[0, 1], 0, 0, 20),
            (&[0, 0, 0, 0, 8, 0, 0, 0], 0, 0, 20),
        ] {
            let (numbers, data) = (vec![0xaa; numbers_len], vec![0xaa; data_len]);
            let lent = Lent { stack: stack.to_vec(), numbers, data };
            assert_eq!(harness.read_stack(&plan.encode(), &lent).0, number, "{stack:x?}");
        }
    }
}

/// 64 sheets are taken, 65 are not, nor are 256 or 65,535, though header and lengths are right for them.
#[test]
fn most_sheets() {
    let mut harness = Harness::new(113);
    for plan in [plan_s(), no_data()] {
        for (count, number) in [(63, 0), (64, 0), (65, 20), (66, 20), (128, 20), (256, 20)] {
            let rooms = random_rooms(count, &mut harness.rng);
            let lent = Lent::random(&plan, &rooms, &mut harness.rng);
            assert_eq!(harness.read_stack(&plan.encode(), &lent).0, number, "{count}");
        }
        let sheets = vec![vec![0; plan.sheet_len()]; 65_535];
        let lent = Lent::new(&plan, &[0; 65_535], &sheets, &mut harness.rng);
        assert_eq!(harness.read_stack(&plan.encode(), &lent).0, 20);
    }
}

/// The first check that fails is told, whatever else is wrong: the plan's number before all others, then 20,
/// 21 and 12. Sheets that are refused turn back nothing. A refusal changes nothing.
#[test]
fn order_of_the_checks() {
    let mut harness = Harness::new(114);
    let mut tally = Tally::default();
    let good = [vec![0, 0], stack_of(&plan_s(), &[1], &[vec![3, 0, 0]])];
    let two = stack_of(&plan_s(), &[0, 1], &[vec![3, 3, 1], vec![3, 3, 8]]);
    let mut stacks: Vec<_> = good.into_iter().chain([two.clone()]).map(|one| (one, true)).collect();
    stacks.extend(bad_stacks(&plan_s(), &two).into_iter().map(|(_, bad)| (bad, false)));
    for (bytes, of_the_plan) in plan_for_each_number() {
        for (stack, is_good) in &stacks {
            let count = stack.first().map_or(0, |&count| usize::from(count));
            for numbers_len in [0, 1, 2, 16, 17, 18, 19, 32, 35, 36, 37] {
                for data_len in [0, 1, 2, 3, 6] {
                    let (numbers, data) = (vec![0xaa; numbers_len], vec![0xaa; data_len]);
                    let lent = Lent { stack: stack.clone(), numbers, data };
                    let answer = harness.read_stack(&bytes, &lent).0;
                    let expected = match () {
                        () if of_the_plan.is_refusal() => of_the_plan,
                        () if !is_good => Answer::refusal(20, 0, 0),
                        () if numbers_len != NUMBERS_LEN * count => Answer::refusal(21, 0, 0),
                        () if data_len != count => Answer::refusal(12, 0, 0),
                        () => Answer::default(),
                    };
                    assert_eq!(Answer::unpack(answer), expected, "{stack:x?}");
                    tally.count(answer);
                }
            }
        }
    }
    let least = [
        (0..=0, 3),
        (1..=10, 1000),
        (23..=23, 1000),
        (12..=12, 10),
        (20..=20, 1000),
        (21..=21, 100),
    ];
    tally.require("sheet_read_stack, more than one check fails", &least);
}

/// Every kind of bad header, in stacks of 0 to 64 sheets; the same stacks without the fault are taken. No byte
/// changes, which the call on guarded buffers makes sure of.
#[test]
fn bad_headers() {
    let mut harness = Harness::new(115);
    let (mut stacks, mut turned_back) = (0, 0);
    let wide = powers_3x3(70, 90, CellOrder::Scattered, &mut harness.rng);
    for plan in [plan_s(), plan_t(), no_data(), wide] {
        for count in [0, 1, 2, 3, 17, 63, 64] {
            let rooms = random_rooms(count, &mut harness.rng);
            let lent = Lent::random(&plan, &rooms, &mut harness.rng);
            assert_eq!(harness.stack_read(&plan, &lent).0, 0);
            for (what, stack) in bad_stacks(&plan, &lent.stack) {
                let bad = Lent { stack, ..lent.clone() };
                let (answer, left) = harness.stack_read(&plan, &bad);
                assert_eq!(answer, 20, "{what}");
                assert!(left == bad, "{what}");
                turned_back += 1;
            }
            stacks += 1;
        }
    }
    println!("{stacks} stacks, so altered that {turned_back} are turned back");
    assert!(turned_back >= 1500);
}

/// Sheets that are refused, by 13 or by 14, at each place of a stack, alone and next to each other: every other
/// sheet is mended and gives its data; the refused ones and the places of their data stay.
#[test]
fn a_refused_sheet_stops_no_other() {
    let mut harness = Harness::new(116);
    let mut tally = Tally::default();
    for count in [1, 2, 3, 5, 17, 64] {
        for refused_kind in [Kind::Hopeless, Kind::Unused] {
            let plan = powers_3x3(10, 13, CellOrder::Scattered, &mut harness.rng);
            for at in 0..count {
                for refused in [at..at + 1, at..count, 0..at + 1] {
                    let rng = &mut harness.rng;
                    let kind = |sheet| match refused.contains(&sheet) {
                        true => refused_kind,
                        false => Kind::Burst,
                    };
                    let sheets: Vec<_> =
                        (0..count).map(|sheet| sheet_of(&plan, kind(sheet), rng)).collect();
                    let rooms = random_rooms(count, rng);
                    let lent = Lent::new(&plan, &rooms, &sheets, rng);
                    let (answer, left) = harness.stack_read(&plan, &lent);
                    assert_eq!(answer, 0);
                    for sheet in 0..count {
                        let told = told_of(&left.numbers, sheet);
                        assert_eq!(told.is_refusal(), refused.contains(&sheet), "{told:?}");
                        let places = places(&plan, count, sheet);
                        let [before, _, text_before] = lent.at(&places);
                        let [after, _, text] = left.at(&places);
                        if told.is_refusal() {
                            assert!(after == before && text == text_before);
                        } else {
                            assert_eq!(model::syndrome(&plan, after), 0);
                            assert_eq!(model::write_sheet(&plan, text), after);
                        }
                        tally.count(told.pack());
                    }
                }
            }
        }
    }
    let least = [(0..=0, 10_000), (13..=14, 4000)];
    tally.require("sheets of stacks with refused ones", &least);
}

/// Every sheet of the smallest plans, and every row of bytes of those with few: 64 at a time.
#[test]
fn every_sheet_of_the_smallest_plans() {
    let mut harness = Harness::new(117);
    let mut tally = Tally::default();
    for plan in [plan_s(), plan_t(), plan_two_rows(), no_data()] {
        let mut sheets: Vec<_> = every_sheet(&plan).collect();
        sheets.extend((0..=255).map(|byte| vec![byte; plan.sheet_len()]));
        for some in sheets.chunks(64) {
            let rooms = random_rooms(some.len(), &mut harness.rng);
            let lent = Lent::new(&plan, &rooms, some, &mut harness.rng);
            let (answer, left) = harness.read_stack(&plan.encode(), &lent);
            assert_eq!(answer, 0);
            for sheet in 0..some.len() {
                tally.count(told_of(&left.numbers, sheet).pack());
            }
        }
    }
    tally.require("sheets", &[(0..=0, 300), (13..=13, 500), (14..=14, 200)]);
}

/// Every number of the call, and of a sheet: good and damaged plans, good and bad stacks, buffers of right and
/// wrong lengths. No other number is met.
#[test]
fn every_number() {
    let mut harness = Harness::new(118);
    let (mut tally, mut of_sheets) = (Tally::default(), Tally::default());
    for (b1, b2) in burst_sizes() {
        for _ in 0..40 {
            let plan = accepted(&mut harness.rng, b1, b2, 8);
            for _ in 0..24 {
                let rng = &mut harness.rng;
                let bytes = if rng.one_in(3) { damaged(&plan, rng) } else { plan.encode() };
                let count = rng.below(5);
                let rooms = random_rooms(count, rng);
                let mut lent = Lent::random(&plan, &rooms, rng);
                if rng.one_in(6) {
                    let bad = bad_stacks(&plan, &lent.stack);
                    lent.stack = bad[rng.below(bad.len())].1.clone();
                }
                for buffer in [&mut lent.numbers, &mut lent.data] {
                    if rng.one_in(8) {
                        alter_length(buffer, rng);
                    }
                }
                let (answer, left) = harness.read_stack(&bytes, &lent);
                tally.count(answer);
                assert_eq!(Answer::unpack(answer).mended(), [0; 6]);
                for sheet in (0..count).filter(|_| answer == 0) {
                    of_sheets.count(told_of(&left.numbers, sheet).pack());
                }
            }
        }
    }
    let least = [(0..=0, 5000), (1..=10, 50), (23..=23, 50), (12..=12, 100), (20..=21, 500)];
    tally.require("sheet_read_stack", &least);
    assert!([11, 22].into_iter().chain(13..20).chain(24..32).all(|number| tally.met(number) == 0));
    of_sheets.require("its sheets", &[(0..=0, 5000), (13..=14, 1000)]);
    assert!((1..13).chain(15..32).all(|number| of_sheets.met(number) == 0));
}

/// An unused bit in each row of a sheet, at the first place, the middle one and the last of a stack: the byte is
/// counted from that sheet's first. Sheets have few bytes and many, up to those of 512 rows of 88.
#[test]
fn places_of_unused_bits() {
    let mut harness = Harness::new(119);
    let mut told = 0;
    for (n1, n2, step) in [(12, 7, 1), (12, 9, 1), (40, 65, 1), (512, 698, 73)] {
        let plan = powers_3x3(n1, n2, CellOrder::Scattered, &mut harness.rng);
        for row in (0..n1).step_by(step).chain([n1 - 1]) {
            for place in 0..3 {
                let rng = &mut harness.rng;
                let mut sheets: Vec<_> = (0..3).map(|_| vec![0; plan.sheet_len()]).collect();
                let byte = (row + 1) * plan.row_len() - 1;
                sheets[place][byte] |= 0x80;
                let lent = Lent::new(&plan, &[0, 1, 0], &sheets, rng);
                let mut left = lent.clone();
                assert_eq!(harness.library.read_stack(&plan.encode(), &mut left), 0);
                for sheet in 0..3 {
                    let expected = if sheet == place {
                        Answer::refusal(13, byte, 0)
                    } else {
                        Answer::default()
                    };
                    assert_eq!(told_of(&left.numbers, sheet), expected);
                }
                assert!(left.stack == lent.stack);
                told += 1;
            }
        }
    }
    println!("{told} places of unused bits");
    assert!(told >= 200);
}

/// A plan without data: sheets are mended, or refused, and the data buffer is empty.
#[test]
fn plans_without_data() {
    let mut harness = Harness::new(120);
    let (mut tally, mut plans) = (Tally::default(), vec![no_data()]);
    for (b1, b2) in burst_sizes() {
        let some: Vec<_> = (0..40).map(|_| accepted(&mut harness.rng, b1, b2, 3)).collect();
        plans.extend(some.into_iter().filter(|plan| plan.data_bits() == 0));
    }
    for plan in &plans {
        for count in [0, 1, 2, 17] {
            let rooms = random_rooms(count, &mut harness.rng);
            let lent = Lent::random(plan, &rooms, &mut harness.rng);
            let (answer, left) = harness.stack_read(plan, &lent);
            assert!(answer == 0 && left.data.is_empty());
            (0..count).for_each(|sheet| tally.count(told_of(&left.numbers, sheet).pack()));
            let more = Lent { data: vec![0xaa], ..lent };
            assert_eq!(harness.stack_read(plan, &more).0, 12);
        }
    }
    println!("{} plans without data", plans.len());
    assert!(plans.len() >= 10);
    tally.require("their sheets", &[(0..=0, 100), (13..=14, 10)]);
}

/// What was held at the places of numbers does not matter, and the unread high bytes are written too: the same
/// stack in buffers of every filling.
#[test]
fn numbers_are_all_written() {
    let mut harness = Harness::new(121);
    let plan = powers_3x3(12, 13, CellOrder::Sheet, &mut harness.rng);
    let written = sheet_of(&plan, Kind::Written, &mut harness.rng);
    let burst = random_burst(&plan, &mut harness.rng);
    let lost = hopeless(&plan, &mut harness.rng).expect("not every sheet can be mended");
    let spoilt = sheet_of(&plan, Kind::Unused, &mut harness.rng);
    let sheets = [written.clone(), turned(&plan, &written, &burst), lost, spoilt];
    let mut numbers = Vec::new();
    for held in 0..=255 {
        let mut lent = Lent::new(&plan, &[0, 1, 1, 0], &sheets, &mut harness.rng);
        lent.numbers.fill(held);
        let (answer, left) = harness.stack_read(&plan, &lent);
        assert_eq!(answer, 0);
        numbers.push(left.numbers);
    }
    assert!(numbers.iter().all(|of| *of == numbers[0]));
    let told = [0, 1, 2, 3].map(|sheet| told_of(&numbers[0], sheet).number);
    assert_eq!(told, [0, 0, 14, 13]);
}

/// A stack that was read is read again: nothing is to be mended any more, refused sheets are refused again, and
/// the data are the same.
#[test]
fn read_again() {
    let mut harness = Harness::new(122);
    for (b1, b2) in burst_sizes() {
        let plan: Plan = accepted(&mut harness.rng, b1, b2, 9);
        let rooms = random_rooms(17, &mut harness.rng);
        let lent = Lent::random(&plan, &rooms, &mut harness.rng);
        let (_, once) = harness.stack_read(&plan, &lent);
        let (_, twice) = harness.stack_read(&plan, &once);
        assert!(once.stack == twice.stack && once.data == twice.data);
        for sheet in 0..17 {
            let [first, second] = [&once, &twice].map(|left| told_of(&left.numbers, sheet));
            assert_eq!((first.places(), [0; 6]), (second.places(), second.mended()));
        }
    }
}

//! sheet_read_stack by the thousands: stacks of 0, 1, 2, 17 and 64 sheets of every kind, each sheet as it is read
//! alone; two runs that differ in one room; written sheets given back; one stack of 64 full-size sheets.

use sheet_tests::answer::Answer;
use sheet_tests::compared::{house_by_call, Harness};
use sheet_tests::damage::{alter_length, damaged};
use sheet_tests::kinds::{sheet_of, Kind, KINDS};
use sheet_tests::make::{accepted, burst_sizes};
use sheet_tests::model::{self, smallest_rectangle, NUMBERS_LEN};
use sheet_tests::plan::Plan;
use sheet_tests::scans::{random_burst, random_data, turned};
use sheet_tests::stacks::{bad_stacks, places, random_rooms, told_of, Lent, COUNTS};
use sheet_tests::tally::Tally;

/// 02 h): each sheet is read as if it were alone. Its bytes, its numbers and its data are those that sheet_read
/// leaves and answers.
fn as_if_alone(harness: &mut Harness, plan: &Plan, before: &Lent, after: &Lent) -> Tally {
    let (bytes, count) = (plan.encode(), before.numbers.len() / NUMBERS_LEN);
    let mut tally = Tally::default();
    for sheet in 0..count {
        let places = places(plan, count, sheet);
        let [scan, _, held] = before.at(&places);
        let (mut scan, mut data) = (scan.to_vec(), held.to_vec());
        let answer = harness.library.read(&bytes, &mut scan, &mut data);
        let [mended, _, text] = after.at(&places);
        assert_eq!(told_of(&after.numbers, sheet), Answer::unpack(answer), "sheet {sheet}");
        assert!(mended == scan && text == data, "sheet {sheet} of {count}");
        tally.count(answer);
    }
    let header = ..2 + 6 * count;
    assert!(after.stack[header] == before.stack[header], "the header was changed");
    tally
}

/// Stacks of small plans with sheets of every kind, beside the model and beside each sheet alone.
#[test]
fn each_sheet_as_if_alone() {
    let mut harness = Harness::new(131);
    let mut tally = Tally::default();
    let mut stacks = 0;
    for (b1, b2) in burst_sizes() {
        for _ in 0..30 {
            let plan = accepted(&mut harness.rng, b1, b2, 9);
            for count in COUNTS {
                let rooms = random_rooms(count, &mut harness.rng);
                let lent = Lent::random(&plan, &rooms, &mut harness.rng);
                let (answer, left) = harness.stack_read(&plan, &lent);
                assert_eq!(answer, 0);
                tally.add(&as_if_alone(&mut harness, &plan, &lent, &left));
                stacks += 1;
            }
        }
    }
    println!("{stacks} stacks");
    assert!(stacks >= 2000);
    tally.require("their sheets", &[(0..=0, 10_000), (13..=13, 10_000), (14..=14, 5000)]);
}

/// 02 h): two runs with the same plan, header and lengths, and the same bytes in room A's sheets and its places in
/// both buffers; any others in room B's. Room A's numbers, sheets and data end equal, and so does the answer. What
/// became of room B's sheets is handed back: in how many of them the two runs were told other numbers.
fn room_by_itself(
    harness: &mut Harness,
    plan: &[u8],
    parsed: &Plan,
    rooms: &[u16],
    lent: &Lent,
    room: u16,
) -> (u64, usize) {
    let mut one = lent.clone();
    let mut other = lent.changed_in(parsed, rooms, 1 - room, &mut harness.rng);
    let before = |lent: &Lent| lent.of_room(parsed, rooms, room).concat().concat();
    assert!(before(&one) == before(&other));
    let answer = harness.library.read_stack(plan, &mut one);
    assert_eq!(harness.library.read_stack(plan, &mut other), answer);
    let [left, right] = [&one, &other].map(|lent| lent.of_room(parsed, rooms, room));
    assert!(left == right, "room {room} of {rooms:?}");
    let [left, right] = [&one, &other].map(|lent| lent.of_room(parsed, rooms, 1 - room));
    let differ = left.iter().zip(&right).filter(|(one, other)| one[1] != other[1]);
    (answer, if answer == 0 { differ.count() } else { 0 })
}

/// Random pairs of runs, for each room as room A, under good plans.
#[test]
fn two_runs() {
    let mut harness = Harness::new(132);
    let (mut pairs, mut differ) = (0, 0);
    for (b1, b2) in burst_sizes() {
        for _ in 0..30 {
            let plan = accepted(&mut harness.rng, b1, b2, 9);
            for count in COUNTS {
                let rooms = random_rooms(count, &mut harness.rng);
                let lent = Lent::random(&plan, &rooms, &mut harness.rng);
                for room in [0, 1] {
                    let (answer, others) =
                        room_by_itself(&mut harness, &plan.encode(), &plan, &rooms, &lent, room);
                    assert_eq!(answer, 0);
                    (pairs, differ) = (pairs + 1, differ + others);
                }
            }
        }
    }
    println!("{pairs} pairs of runs; {differ} sheets of the other room were told other numbers");
    assert!(pairs >= 4000 && differ >= 20_000);
}

/// The same where the whole stack is turned back: damaged plans, bad headers, buffers of other lengths.
#[test]
fn two_runs_turned_back() {
    let mut harness = Harness::new(133);
    let mut tally = Tally::default();
    for (b1, b2) in burst_sizes() {
        for _ in 0..10 {
            let plan = accepted(&mut harness.rng, b1, b2, 9);
            for _ in 0..20 {
                let rng = &mut harness.rng;
                let count = rng.pick(&[1, 2, 3, 17]);
                let rooms = random_rooms(count, rng);
                let mut lent = Lent::random(&plan, &rooms, rng);
                let mut bytes = plan.encode();
                match rng.below(4) {
                    0 => bytes = damaged(&plan, rng),
                    1 => {
                        let bad = bad_stacks(&plan, &lent.stack);
                        lent.stack = bad[rng.below(bad.len())].1.clone();
                    }
                    2 => alter_length(&mut lent.numbers, rng),
                    _ => alter_length(&mut lent.data, rng),
                }
                for room in [0, 1] {
                    let (answer, _) =
                        room_by_itself(&mut harness, &bytes, &plan, &rooms, &lent, room);
                    tally.count(answer);
                }
            }
        }
    }
    let least = [(1..=10, 5), (23..=23, 5), (12..=12, 500), (20..=21, 500)];
    tally.require("pairs of runs, turned back", &least);
}

/// One room holds nothing but refused sheets, or any bytes, and the other room's sheets are given back as they were
/// written; as many sheets of each room, in turns, or one room after the other.
#[test]
fn spoilt_room() {
    let mut harness = Harness::new(134);
    let mut sheets = 0;
    for (b1, b2) in burst_sizes() {
        for spoilt in [Kind::Hopeless, Kind::Unused, Kind::Anything] {
            let plan = accepted(&mut harness.rng, b1, b2, 9);
            for rooms in
                [[0, 1, 0, 1, 0, 1], [1, 0, 1, 0, 1, 0], [0, 0, 0, 1, 1, 1], [1, 1, 1, 0, 0, 0]]
            {
                let rng = &mut harness.rng;
                let data = [(); 6].map(|()| random_data(&plan, rng));
                let written = data.clone().map(|data| model::write_sheet(&plan, &data));
                let scans = [0, 1, 2, 3, 4, 5].map(|sheet| match rooms[sheet] {
                    0 => turned(&plan, &written[sheet], &random_burst(&plan, rng)),
                    _ => sheet_of(&plan, spoilt, rng),
                });
                let lent = Lent::new(&plan, &rooms, &scans, rng);
                let (answer, left) = harness.stack_read(&plan, &lent);
                assert_eq!(answer, 0);
                for sheet in (0..6).filter(|&sheet| rooms[sheet] == 0) {
                    let [mended, _, text] = left.at(&places(&plan, 6, sheet));
                    assert!(mended == written[sheet] && text == data[sheet]);
                    sheets += 1;
                }
            }
        }
    }
    println!("{sheets} sheets beside a spoilt room");
    assert!(sheets >= 500);
}

/// Written sheets with one burst or none: every sheet and its data are given back, with the number of cells and the
/// smallest rectangle that holds them.
#[test]
fn written_sheets_are_given_back() {
    let mut harness = Harness::new(135);
    let (mut stacks, mut sheets) = (0, 0);
    for (b1, b2) in burst_sizes() {
        for _ in 0..8 {
            let plan = accepted(&mut harness.rng, b1, b2, 12);
            for count in COUNTS {
                let rng = &mut harness.rng;
                let data: Vec<_> = (0..count).map(|_| random_data(&plan, rng)).collect();
                let written: Vec<_> = data.iter().map(|of| model::write_sheet(&plan, of)).collect();
                let mut burst = || if rng.one_in(3) { vec![] } else { random_burst(&plan, rng) };
                let bursts: Vec<_> = (0..count).map(|_| burst()).collect();
                let both = written.iter().zip(&bursts);
                let scans: Vec<_> = both.map(|(of, burst)| turned(&plan, of, burst)).collect();
                let rooms = random_rooms(count, rng);
                let mut lent = Lent::new(&plan, &rooms, &scans, rng);
                assert_eq!(harness.library.read_stack(&plan.encode(), &mut lent), 0);
                let header = &lent.stack[..2 + 6 * count];
                assert!(lent.stack == [header, &written.concat()].concat());
                assert!(lent.data == data.concat());
                for (sheet, burst) in bursts.iter().enumerate() {
                    assert_eq!(told_of(&lent.numbers, sheet), smallest_rectangle(burst));
                }
                (stacks, sheets) = (stacks + 1, sheets + count);
            }
        }
    }
    println!("{stacks} stacks of {sheets} written sheets");
    assert!(stacks >= 500 && sheets >= 5000);
}

/// 64 sheets under the house plan, of every kind: beside the model, beside each sheet alone, and each room by itself.
#[test]
fn full_size() {
    let mut harness = Harness::new(136);
    let plan = house_by_call();
    let rooms: Vec<u16> = (0..64).map(|_| harness.rng.bits(1) as u16).collect();
    let sheets: Vec<_> =
        (0..64).map(|sheet| sheet_of(&plan, KINDS[sheet % 4], &mut harness.rng)).collect();
    let lent = Lent::new(&plan, &rooms, &sheets, &mut harness.rng);
    let (answer, left) = harness.stack_read(&plan, &lent);
    assert_eq!(answer, 0);
    let tally = as_if_alone(&mut harness, &plan, &lent, &left);
    tally.require("full-size sheets of one stack", &[(0..=0, 32), (13..=14, 16)]);
    for room in [0, 1] {
        let (answer, differ) =
            room_by_itself(&mut harness, &plan.encode(), &plan, &rooms, &lent, room);
        assert!(answer == 0 && differ >= 10);
    }
    for (what, stack) in bad_stacks(&plan, &lent.stack).into_iter().step_by(7) {
        let mut bad = Lent { stack, ..lent.clone() };
        assert_eq!(harness.library.read_stack(&plan.encode(), &mut bad), 20, "{what}");
    }
}

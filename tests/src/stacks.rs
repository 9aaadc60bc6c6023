//! Stacks of sheets: good ones, with sheets of every kind; such as check 20 turns back; and what differs in the
//! sheets of one room alone.

use std::ops::Range;

use crate::answer::Answer;
use crate::kinds::{sheet_of, KINDS};
use crate::model::NUMBERS_LEN;
use crate::plan::Plan;
use crate::rng::Rng;

/// How many sheets the stacks have that are read by the thousands.
pub const COUNTS: [usize; 5] = [0, 1, 2, 17, 64];

/// The buffers that are lent for a stack beside the plan.
#[derive(Clone, Debug, PartialEq, Eq)]
pub struct Lent {
    pub stack: Vec<u8>,
    pub numbers: Vec<u8>,
    pub data: Vec<u8>,
}

/// So many sheets of random kinds.
pub fn random_sheets(plan: &Plan, count: usize, rng: &mut Rng) -> Vec<Vec<u8>> {
    let mut one = || sheet_of(plan, rng.pick(&KINDS), rng);
    (0..count).map(|_| one()).collect()
}

/// A room for each sheet: mostly any, sometimes the same for all.
pub fn random_rooms(count: usize, rng: &mut Rng) -> Vec<u16> {
    let any: Vec<_> = (0..count).map(|_| rng.bits(1) as u16).collect();
    rng.pick(&[any.as_slice(), &any, &any, &vec![0; count], &vec![1; count]]).to_vec()
}

/// The stack of these sheets: the count, then for each sheet its room and its offset, then the sheets. All
/// numbers are low byte first.
pub fn stack_of(plan: &Plan, rooms: &[u16], sheets: &[Vec<u8>]) -> Vec<u8> {
    let mut stack = (rooms.len() as u16).to_le_bytes().to_vec();
    for (sheet, room) in rooms.iter().enumerate() {
        let offset = 2 + 6 * rooms.len() + sheet * plan.sheet_len();
        stack.extend(room.to_le_bytes());
        stack.extend((offset as u32).to_le_bytes());
    }
    stack.extend(sheets.concat());
    stack
}

/// Where a sheet of a stack of so many has its bytes: in the stack, in the numbers and in the data.
pub fn places(plan: &Plan, count: usize, sheet: usize) -> [Range<usize>; 3] {
    let at = |start: usize, len: usize| start + sheet * len..start + (sheet + 1) * len;
    [at(2 + 6 * count, plan.sheet_len()), at(0, NUMBERS_LEN), at(0, plan.data_len())]
}

/// The numbers that a stack tells of a sheet, as one answer.
pub fn told_of(numbers: &[u8], sheet: usize) -> Answer {
    let of = &numbers[NUMBERS_LEN * sheet..NUMBERS_LEN * (sheet + 1)];
    let mut fields = of.chunks(2).map(|two| u64::from(two[0]) + 256 * u64::from(two[1]));
    let mut next = || fields.next().expect("there are nine");
    Answer {
        number: next(),
        p: next(),
        q: next(),
        cells: next(),
        top: next(),
        left: next(),
        height: next(),
        width: next(),
        pattern: next(),
    }
}

impl Lent {
    /// The stack of these sheets, and the other buffers of their right lengths, with random bytes.
    pub fn new(plan: &Plan, rooms: &[u16], sheets: &[Vec<u8>], rng: &mut Rng) -> Lent {
        Lent {
            stack: stack_of(plan, rooms, sheets),
            numbers: rng.bytes(NUMBERS_LEN * sheets.len()),
            data: rng.bytes(sheets.len() * plan.data_len()),
        }
    }

    /// A stack of so many sheets of random kinds, with these rooms.
    pub fn random(plan: &Plan, rooms: &[u16], rng: &mut Rng) -> Lent {
        let sheets = random_sheets(plan, rooms.len(), rng);
        Lent::new(plan, rooms, &sheets, rng)
    }

    /// The bytes at these places, as far as the buffers have them.
    pub fn at(&self, places: &[Range<usize>; 3]) -> [&[u8]; 3] {
        let [stack, numbers, data] = places;
        [(&self.stack, stack), (&self.numbers, numbers), (&self.data, data)].map(
            |(buffer, place)| &buffer[place.start.min(buffer.len())..place.end.min(buffer.len())],
        )
    }

    /// Other bytes at these places, as far as the buffers have them.
    fn set(&mut self, places: [Range<usize>; 3], bytes: [Vec<u8>; 3]) {
        let buffers = [&mut self.stack, &mut self.numbers, &mut self.data];
        for ((buffer, place), bytes) in buffers.into_iter().zip(places).zip(bytes) {
            for (at, byte) in place.zip(bytes) {
                if let Some(held) = buffer.get_mut(at) {
                    *held = byte;
                }
            }
        }
    }

    /// The same with other bytes in this room's sheets and in its places of numbers and data. A sheet is
    /// changed to one of a random kind.
    pub fn changed_in(&self, plan: &Plan, rooms: &[u16], room: u16, rng: &mut Rng) -> Lent {
        let mut changed = self.clone();
        for sheet in (0..rooms.len()).filter(|&sheet| rooms[sheet] == room) {
            let other = sheet_of(plan, rng.pick(&KINDS), rng);
            let bytes = [other, rng.bytes(NUMBERS_LEN), rng.bytes(plan.data_len())];
            changed.set(places(plan, rooms.len(), sheet), bytes);
        }
        changed
    }

    /// All that this room's sheets have in the three buffers.
    pub fn of_room(&self, plan: &Plan, rooms: &[u16], room: u16) -> Vec<[&[u8]; 3]> {
        let of = (0..rooms.len()).filter(|&sheet| rooms[sheet] == room);
        of.map(|sheet| self.at(&places(plan, rooms.len(), sheet))).collect()
    }
}

/// A stack that check 20 turns back, and what is wrong with it.
pub type BadStack = (String, Vec<u8>);

/// The good stack so altered that check 20 turns it back: its length, its count, and for the first sheet, one
/// in the middle and the last, the room, the offset, and gaps that the header tells of.
pub fn bad_stacks(plan: &Plan, good: &[u8]) -> Vec<BadStack> {
    let count = usize::from(good[0]);
    let mut bad = bad_lengths(plan, good, count);
    bad.extend(bad_counts(good, count));
    let mut sheets = vec![0, count / 2, count.saturating_sub(1)];
    sheets.dedup();
    for sheet in sheets.into_iter().filter(|&sheet| sheet < count) {
        bad.extend(bad_rooms(good, sheet));
        bad.extend(bad_offsets(plan, good, sheet));
        bad.push((format!("a gap before sheet {sheet}"), with_gap(good, count, sheet)));
    }
    if count >= 2 {
        let mut swapped = good.to_vec();
        set_offset(&mut swapped, 0, offset(good, 1));
        set_offset(&mut swapped, 1, offset(good, 0));
        bad.push(("two offsets exchanged".into(), swapped));
    }
    bad
}

/// Too short or too long: by one byte, by one sheet, cut in the header or after it. Of a stack of no sheets the
/// header is all there is.
fn bad_lengths(plan: &Plan, good: &[u8], count: usize) -> Vec<BadStack> {
    let header = 2 + 6 * count;
    let mut lengths = vec![0, 1, good.len() - 1, good.len() + 1, good.len() + plan.sheet_len()];
    lengths.extend([good.len() + (1 << 16), good.len() + 6]);
    if count > 0 {
        let cut = [2, 3, 4, 7, header - 1, header, header + 1, good.len() - plan.sheet_len()];
        lengths.extend(cut.into_iter().filter(|&length| length < good.len()));
    }
    let of = |length: usize| {
        let mut stack = good.to_vec();
        stack.resize(length, 0);
        (format!("{length} bytes for {}", good.len()), stack)
    };
    lengths.into_iter().map(of).collect()
}

/// Another count, one less or more than fits, and such as differ in the high byte.
fn bad_counts(good: &[u8], count: usize) -> Vec<BadStack> {
    let near = [count.wrapping_sub(1), count + 1, 0, 65, 128 + count, 256 + count];
    let others = near.into_iter().chain([(1 << 15) + count, (1 << 16) - 1]);
    let of = |other: usize| (format!("count {other} for {count}"), with(good, 0, 2, other as u32));
    others.filter(|&other| other != count && other < 1 << 16).map(of).collect()
}

fn bad_rooms(good: &[u8], sheet: usize) -> Vec<BadStack> {
    let of = |room| (format!("room {room} of sheet {sheet}"), with(good, 2 + 6 * sheet, 2, room));
    [2, 3, 128, 256, 257, 1 << 15, (1 << 16) - 1].into_iter().map(of).collect()
}

/// An offset one less or more, one of another sheet, of the stack's start and end, and with each byte altered.
fn bad_offsets(plan: &Plan, good: &[u8], sheet: usize) -> Vec<BadStack> {
    let (right, len) = (offset(good, sheet), plan.sheet_len() as u32);
    let near = [right - 1, right + 1, right - len.min(right), right + len, 0, good.len() as u32];
    let altered = [1, 1 << 7, 1 << 8, 1 << 15, 1 << 16, 1 << 23, 1 << 24, 1 << 31];
    let others = near.into_iter().chain(altered.map(|bit| right ^ bit));
    let of = |other| {
        let what = format!("offset {other} for {right} of sheet {sheet}");
        (what, with(good, 4 + 6 * sheet, 4, other))
    };
    others.filter(|&other| other != right).map(of).collect()
}

/// One byte between the sheet and what comes before it, which the offsets and the length make room for.
fn with_gap(good: &[u8], count: usize, sheet: usize) -> Vec<u8> {
    let mut stack = good.to_vec();
    stack.insert(offset(good, sheet) as usize, 0);
    for later in sheet..count {
        set_offset(&mut stack, later, offset(good, later) + 1);
    }
    stack
}

/// The offset that the header tells of a sheet.
fn offset(stack: &[u8], sheet: usize) -> u32 {
    let at = 4 + 6 * sheet;
    u32::from_le_bytes([0, 1, 2, 3].map(|byte| stack[at + byte]))
}

fn set_offset(stack: &mut Vec<u8>, sheet: usize, value: u32) {
    *stack = with(stack, 4 + 6 * sheet, 4, value);
}

/// The stack with another number in so many bytes from here on, low byte first.
fn with(stack: &[u8], at: usize, bytes: usize, value: u32) -> Vec<u8> {
    let mut stack = stack.to_vec();
    stack[at..at + bytes].copy_from_slice(&value.to_le_bytes()[..bytes]);
    stack
}

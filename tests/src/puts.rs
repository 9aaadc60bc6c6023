//! Answers to put back: worked out by hand, those of bursts, such as check 22 turns back for one reason alone, and
//! such as differ from a good one in a field or in a bit.

use crate::answer::{Answer, MENDED};
use crate::cases::{plan_s, plan_t, plan_two_rows};
use crate::make::{no_data, powers_3x3, CellOrder};
use crate::model::{smallest_rectangle, Fault};
use crate::plan::Plan;
use crate::rng::Rng;
use crate::scans::{denser_bursts_at, every_burst, full_burst, random_burst};

/// The reader's six numbers.
pub type Six = [u64; 6];

/// A plan, a sheet, the six numbers of an answer, and the sheet with these cells put back.
pub type PutCase = (Plan, Vec<u8>, Six, Vec<u8>);

/// A sheet of eight rows of eight cells with bursts of 3 × 3: a byte a row.
pub fn plan_eight() -> Plan {
    powers_3x3(8, 8, CellOrder::Sheet, &mut Rng::new(1))
}

/// Cases 3 and 6 of 01 the other way round, and others worked out by hand: on sheets that belong and on others, and
/// with patterns whose bits would be others if they were counted down the columns or along the plan's rectangle.
pub fn put_cases() -> Vec<PutCase> {
    let case = |plan: Plan, before: &[u8], six: Six, after: &[u8]| {
        (plan, before.to_vec(), six, after.to_vec())
    };
    let eight = |six: Six, after: [u8; 8]| (plan_eight(), vec![0; 8], six, after.to_vec());
    vec![
        case(plan_s(), &[0x03, 0x03, 0x00], [1, 2, 0, 1, 1, 1], &[0x03, 0x03, 0x01]),
        case(plan_t(), &[0x05, 0x05], [2, 0, 1, 1, 2, 3], &[0x03, 0x05]),
        // None: nothing is turned over, whether the sheet belongs or not.
        case(plan_s(), &[0x03, 0x03, 0x00], [0; 6], &[0x03, 0x03, 0x00]),
        case(plan_s(), &[0x03, 0x00, 0x00], [0; 6], &[0x03, 0x00, 0x00]),
        case(plan_t(), &[0x0c, 0x05], [0; 6], &[0x0c, 0x05]),
        // Sheets that do not belong: dark cells and light ones are turned over alike.
        case(plan_s(), &[0x03, 0x00, 0x00], [1, 0, 1, 1, 1, 1], &[0x01, 0x00, 0x00]),
        case(plan_s(), &[0x07, 0x07, 0x07], [1, 2, 2, 1, 1, 1], &[0x07, 0x07, 0x03]),
        case(plan_t(), &[0x0c, 0x05], [2, 1, 2, 1, 2, 3], &[0x0c, 0x09]),
        case(plan_t(), &[0x00, 0x00], [1, 1, 3, 1, 1, 1], &[0x00, 0x08]),
        // Rows 0 and 1 of column 1, rows 1 and 2 of column 0, and the last cell.
        case(plan_two_rows(), &[0x03, 0x00, 0x03], [2, 0, 1, 2, 1, 3], &[0x01, 0x02, 0x03]),
        case(plan_two_rows(), &[0x00, 0x00, 0x00], [2, 1, 0, 2, 1, 3], &[0x00, 0x01, 0x01]),
        case(plan_two_rows(), &[0x00, 0x00, 0x00], [1, 2, 1, 1, 1, 1], &[0x00, 0x00, 0x02]),
        case(no_data(), &[0x00], [1, 0, 1, 1, 1, 1], &[0x02]),
        case(no_data(), &[0x03], [1, 0, 0, 1, 1, 1], &[0x02]),
        // Two rows of three: all of the first, and the first cell of the second, bit 3.
        eight([4, 1, 2, 2, 3, 0b001_111], [0, 0x1c, 0x04, 0, 0, 0, 0, 0]),
        // Three rows of two, in the last corner: the first column, and the last cell, bit 5.
        eight([4, 5, 6, 3, 2, 0b11_01_01], [0, 0, 0, 0, 0, 0x40, 0x40, 0xc0]),
        // Three of three: of the second row, bits 3 to 5, the first two cells, and two corners.
        eight([4, 0, 5, 3, 3, 0b001_011_100], [0x80, 0x60, 0x20, 0, 0, 0, 0, 0]),
        // One row of three, bits 0 and 2; one column of three, the same.
        eight([2, 7, 0, 1, 3, 0b101], [0, 0, 0, 0, 0, 0, 0, 0x05]),
        eight([2, 5, 7, 3, 1, 0b101], [0, 0, 0, 0, 0, 0x80, 0, 0x80]),
        // Two rows of two, one cell apart: bits 1 and 2, not 1 and 3 as in the plan's rectangle.
        eight([2, 3, 3, 2, 2, 0b01_10], [0, 0, 0, 0x10, 0x08, 0, 0, 0]),
        eight([9, 5, 5, 3, 3, 0x1ff], [0, 0, 0, 0, 0, 0xe0, 0xe0, 0xe0]),
    ]
}

/// The packed answer of a success that tells these six numbers.
pub fn packed(six: Six) -> u64 {
    Answer::of_mended(six).pack()
}

/// The packed answers of all bursts of a small plan, the empty one first, each once.
pub fn every_answer(plan: &Plan) -> Vec<u64> {
    let mut answers: Vec<_> =
        every_burst(plan).map(|cells| smallest_rectangle(&cells).pack()).collect();
    answers.sort_unstable();
    answers.dedup();
    answers
}

/// The packed answer of a random burst. It may be the empty one.
pub fn random_answer(plan: &Plan, rng: &mut Rng) -> u64 {
    smallest_rectangle(&random_burst(plan, rng)).pack()
}

/// The six numbers of a full rectangle of so many rows and columns, at most 16 cells, at a corner.
fn full([top, left]: [usize; 2], [height, width]: [usize; 2]) -> Six {
    let cells = height * width;
    [cells, top, left, height, width, (1 << cells) - 1].map(|number| number as u64)
}

/// Answers that check 22 turns back, each for one reason alone, as far as the plan's sizes have such.
pub fn near_misses(plan: &Plan) -> Vec<(Fault, u64)> {
    let mut all = vec![];
    let mut add = |fault, sixes: Vec<Six>| {
        all.extend(sixes.into_iter().map(|six| (fault, packed(six))));
    };
    add(Fault::Exceeds, larger_than_the_burst(plan));
    add(Fault::Leaves, off_the_sheet(plan));
    add(Fault::NotSmallest, not_the_smallest(plan));
    add(Fault::Beyond, with_a_bit_beyond(plan));
    add(Fault::Count, with_another_count(plan));
    add(Fault::None, none_with_a_rectangle(plan));
    // More cells than a burst may have would be a second reason.
    all.retain(|&(_, answer)| plan.t == 0 || Answer::told_by(answer).cells <= plan.t as u64);
    let (bottom, right) = (plan.n1 - plan.b1, plan.n2 - plan.b2);
    for cells in [denser_bursts_at(plan, 0, 0), denser_bursts_at(plan, bottom, right)].concat() {
        all.push((Fault::MoreThanT, smallest_rectangle(&cells).pack()));
    }
    if plan.t != 0 && plan.b1 * plan.b2 > plan.t {
        all.push((Fault::MoreThanT, packed(full([bottom, right], [plan.b1, plan.b2]))));
    }
    let good = [0, smallest_rectangle(&full_burst(plan, bottom, right)).pack()];
    for answer in good {
        all.extend((1..32).map(|number| (Fault::Refusal, answer | number)));
        all.extend((51..64).map(|bit| (Fault::OtherBit, answer | 1 << bit)));
    }
    all
}

/// One row or one column more than a burst has, on the sheet all the same: all cells of one column, its
/// first and its last, and two corners.
fn larger_than_the_burst(plan: &Plan) -> Vec<Six> {
    let Plan { n1, n2, b1, b2, .. } = *plan;
    let mut all = vec![];
    for top in 0..n1.saturating_sub(b1) {
        all.push(full([top, n2 - 1], [b1 + 1, 1]));
        all.push([2, top as u64, 0, b1 as u64 + 1, 1, 1 | 1 << b1]);
        let corners = 1 | 1 << (b1 * b2 + b2 - 1);
        if b2 > 1 && b1 * b2 + b2 <= 16 {
            all.push([2, top as u64, 0, b1 as u64 + 1, b2 as u64, corners]);
        }
    }
    for left in 0..n2.saturating_sub(b2) {
        all.push(full([n1 - 1, left], [1, b2 + 1]));
        all.push([2, 0, left as u64, 1, b2 as u64 + 1, 1 | 1 << b2]);
        let corners = 1 | 1 << ((b2 + 1) * b1 - 1);
        if b1 > 1 && b1 * b2 + b1 <= 16 {
            all.push([2, 0, left as u64, b1 as u64, b2 as u64 + 1, corners]);
        }
    }
    all
}

/// Full rectangles of each size of a burst that go past the last row or the last column, by one or by more, or lie
/// wholly beyond.
fn off_the_sheet(plan: &Plan) -> Vec<Six> {
    let mut all = vec![];
    for height in 1..=plan.b1 {
        for width in 1..=plan.b2 {
            let (bottom, right) = (plan.n1 - height, plan.n2 - width);
            for more in 1..=height + 1 {
                all.push(full([bottom + more, right], [height, width]));
            }
            for more in 1..=width + 1 {
                all.push(full([bottom, right + more], [height, width]));
            }
            all.push(full([bottom + 1, right + 1], [height, width]));
            all.push(full([bottom, 1023], [height, width]));
            if bottom < 511 {
                all.push(full([511, right], [height, width]));
                all.push(full([511, 1023], [height, width]));
            }
        }
    }
    all.retain(|six| six[1] < 512 && six[2] < 1024);
    all
}

/// Rectangles of a burst's size or smaller whose first or last row or column has no cell.
fn not_the_smallest(plan: &Plan) -> Vec<Six> {
    let mut all = vec![];
    for height in 1..=plan.b1 {
        for width in 1..=plan.b2 {
            let row = |r: usize| ((1u64 << width) - 1) << (r * width);
            let column = |s: usize| (0..height).fold(0, |cells, r| cells | 1 << (r * width + s));
            let whole = (1u64 << (height * width)) - 1;
            for edge in [row(0), row(height - 1), column(0), column(width - 1)] {
                let pattern = whole & !edge;
                let (top, left) = ((plan.n1 - height) as u64, (plan.n2 - width) as u64);
                let six = |pattern: u64, top, left| {
                    [pattern.count_ones().into(), top, left, height as u64, width as u64, pattern]
                };
                all.extend([six(pattern, top, left), six(pattern, 0, 0)]);
                // One cell alone, the first or the last that is left.
                if pattern != 0 {
                    all.push(six(1 << pattern.trailing_zeros(), 0, left));
                    all.push(six(1 << pattern.ilog2(), top, 0));
                }
            }
        }
    }
    all.retain(|six| six[5] != 0);
    all
}

/// Full rectangles with one bit more in the pattern, which is counted as a cell; and that bit alone.
fn with_a_bit_beyond(plan: &Plan) -> Vec<Six> {
    let mut all = vec![];
    for height in 1..=plan.b1 {
        for width in 1..=plan.b2 {
            let [cells, top, left, h, w, pattern] =
                full([plan.n1 - height, plan.n2 - width], [height, width]);
            let beyond = height * width..16;
            all.extend(beyond.clone().map(|bit| [cells + 1, top, left, h, w, pattern | 1 << bit]));
            all.extend(beyond.map(|bit| [1, top, left, h, w, 1 << bit]));
        }
    }
    all
}

/// Full rectangles with every other count but 0.
fn with_another_count(plan: &Plan) -> Vec<Six> {
    let mut all = vec![];
    for height in 1..=plan.b1 {
        for width in 1..=plan.b2 {
            let [cells, top, left, h, w, pattern] = full([0, 0], [height, width]);
            let others = (1..32).filter(|&other| other != cells);
            all.extend(others.map(|other| [other, top, left, h, w, pattern]));
        }
    }
    all
}

/// No cells and no pattern, with some other number that is not 0.
fn none_with_a_rectangle(plan: &Plan) -> Vec<Six> {
    let [n1, n2, b1, b2] = [plan.n1, plan.n2, plan.b1, plan.b2].map(|size| size as u64);
    let mut all = vec![
        [0, 0, 0, 1, 0, 0],
        [0, 0, 0, 0, 1, 0],
        [0, 0, 0, 1, 1, 0],
        [0, 0, 0, b1, b2, 0],
        [0, n1 - b1, n2 - b2, b1, b2, 0],
    ];
    all.extend((1..n1).map(|top| [0, top, 0, 0, 0, 0]));
    all.extend((1..n2).map(|left| [0, 0, left, 0, 0, 0]));
    all
}

/// All that differ from these six numbers in one of them, packed. With all patterns these are 67,114.
pub fn differing_in_one(six: Six) -> impl Iterator<Item = u64> {
    (0..6).flat_map(move |place| {
        let others = (0..1 << MENDED[place]).filter(move |&other| other != six[place]);
        others.map(move |other| {
            let mut altered = six;
            altered[place] = other;
            packed(altered)
        })
    })
}

/// All answers of small fields, good or not: one more of each than a burst of this plan on its sheet can have.
pub fn every_small_answer(plan: &Plan) -> Vec<u64> {
    let [n1, n2, b1, b2] = [plan.n1, plan.n2, plan.b1, plan.b2].map(|size| size as u64);
    let bounds = [b1 * b2 + 2, n1 + 1, n2 + 1, b1 + 2, b2 + 2, 1 << (b1 * b2 + 1)];
    (0..bounds.iter().product())
        .map(|mut at: u64| {
            packed(bounds.map(|bound| {
                let number = at % bound;
                at /= bound;
                number
            }))
        })
        .collect()
}

/// The answer with one field or one bit altered, or its rectangle moved or turned; or any 64 bits, with the number 0
/// or not.
pub fn spoilt_answer(plan: &Plan, answer: u64, rng: &mut Rng) -> u64 {
    let any = |rng: &mut Rng| u64::from(rng.bits(32)) << 32 | u64::from(rng.bits(32));
    let mut six = Answer::told_by(answer).mended();
    match rng.below(8) {
        0 => answer ^ 1 << rng.below(64),
        1 => any(rng),
        2 => any(rng) & !31,
        3 => any(rng) & !31 & ((1 << 51) - 1),
        4 => {
            let place = rng.below(6);
            six[place] = rng.bits(MENDED[place] as usize).into();
            packed(six)
        }
        5 => {
            six.swap(3, 4);
            packed(six)
        }
        6 => {
            six[1] = rng.below(plan.n1 + 1).min(511) as u64;
            six[2] = rng.below(plan.n2 + 1) as u64;
            packed(six)
        }
        _ => {
            six[5] ^= 1 << rng.below(16);
            six[0] = six[5].count_ones().into();
            packed(six)
        }
    }
}

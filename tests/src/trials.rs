//! Small sheets, such as are shown by trial: worked out by hand, plans of few cells, sizes about the most that the
//! program `trialread` tries.

use crate::cases::{plan_s, plan_t, plan_tall, plan_two_rows, read_cases, ReadCase};
use crate::make::{accepted, no_data};
use crate::plan::Plan;
use crate::rng::Rng;

/// The most cells of a plan under which the program `trialread` tries (02 j).
pub const MOST_TRIED: usize = 64;

/// Rows and columns of the sheet, and of a burst.
pub type Sizes = [usize; 4];

/// Sizes of just so many cells as `trialread` tries: square, wide, tall, of one row and of one column.
pub const AT_THE_MOST: [Sizes; 12] = [
    [8, 8, 1, 1],
    [8, 8, 2, 3],
    [8, 8, 3, 3],
    [4, 16, 2, 2],
    [4, 16, 3, 3],
    [16, 4, 3, 3],
    [2, 32, 2, 3],
    [32, 2, 3, 2],
    [1, 64, 1, 1],
    [1, 64, 1, 4],
    [64, 1, 1, 1],
    [64, 1, 4, 1],
];

/// Sizes of one cell more: 65 is 5 times 13.
pub const ONE_CELL_MORE: [Sizes; 9] = [
    [5, 13, 1, 1],
    [5, 13, 2, 3],
    [5, 13, 3, 3],
    [13, 5, 2, 2],
    [13, 5, 3, 3],
    [1, 65, 1, 1],
    [1, 65, 1, 4],
    [65, 1, 1, 1],
    [65, 1, 4, 1],
];

/// Sizes with bursts of 4 × 4, of which each rectangle has 65,536 patterns: at the most, and one cell more.
pub const OF_4X4: [Sizes; 3] = [[8, 8, 4, 4], [4, 16, 4, 4], [5, 13, 4, 4]];

/// A random accepted plan for bursts of b1 × b2 that is tried: of at most 64 cells.
pub fn small(rng: &mut Rng, b1: usize, b2: usize) -> Plan {
    loop {
        let plan = accepted(rng, b1, b2, 8);
        if plan.n1 * plan.n2 <= MOST_TRIED {
            return plan;
        }
    }
}

/// How many patterns there are to try: in each rectangle 2 to the power b1 × b2, or as many as have at most
/// t cells.
pub fn patterns(plan: &Plan) -> usize {
    let rectangles = (plan.n1 - plan.b1 + 1) * (plan.n2 - plan.b2 + 1);
    let most = plan.most_cells() as u32;
    rectangles
        * (0..1u32 << (plan.b1 * plan.b2)).filter(|pattern| pattern.count_ones() <= most).count()
}

/// Cases 3, 4, 6 and 7 of 01, and others worked out by hand: bursts in the first rectangle and in the last, such as are
/// smaller than the rectangle they are found in, and sheets with one sum 0.
pub fn trial_cases() -> Vec<ReadCase> {
    let case = |plan: Plan, sheet: &[u8], read: Option<([u64; 6], &[u8], &[u8])>| {
        let read = read.map(|(numbers, mended, data)| (numbers, mended.to_vec(), data.to_vec()));
        (plan, sheet.to_vec(), read)
    };
    let tall = [0x02, 0x00, 0x00, 0x00, 0x00, 0x00, 0x00, 0x01, 0x02];
    let mut last_light = tall;
    last_light[8] = 0x00;
    let mut cases = read_cases();
    cases.extend([
        // As written from data 02: the first pattern of the first rectangle is the empty one.
        case(plan_s(), &[0x03, 0x03, 0x00], Some(([0; 6], &[0x03, 0x03, 0x00], &[0x02]))),
        // The first cell, and the last.
        case(
            plan_s(),
            &[0x02, 0x03, 0x00],
            Some(([1, 0, 0, 1, 1, 1], &[0x03, 0x03, 0x00], &[0x02])),
        ),
        case(
            plan_s(),
            &[0x03, 0x03, 0x04],
            Some(([1, 2, 2, 1, 1, 1], &[0x03, 0x03, 0x00], &[0x02])),
        ),
        // 05 05 is written from data 02: both cells of the last rectangle, and the last cell alone, which is narrower
        // than that.
        case(plan_t(), &[0x05, 0x05], Some(([0; 6], &[0x05, 0x05], &[0x02]))),
        case(plan_t(), &[0x05, 0x09], Some(([2, 1, 2, 1, 2, 3], &[0x05, 0x05], &[0x02]))),
        case(plan_t(), &[0x05, 0x0d], Some(([1, 1, 3, 1, 1, 1], &[0x05, 0x05], &[0x02]))),
        // 0a 0a is written from data 01: columns 2 and 3 of row 0.
        case(plan_t(), &[0x06, 0x0a], Some(([2, 0, 2, 1, 2, 3], &[0x0a, 0x0a], &[0x01]))),
        // 03 00 03 is written from data 01: column 1 of rows 0 and 1, and of rows 1 and 2.
        case(
            plan_two_rows(),
            &[0x01, 0x02, 0x03],
            Some(([2, 0, 1, 2, 1, 3], &[0x03, 0x00, 0x03], &[0x01])),
        ),
        case(
            plan_two_rows(),
            &[0x03, 0x02, 0x01],
            Some(([2, 1, 1, 2, 1, 3], &[0x03, 0x00, 0x03], &[0x01])),
        ),
        // The light sheet with its last cell turned over: found in rows 1 and 2, and told as row 2.
        case(plan_two_rows(), &[0x00, 0x00, 0x02], Some(([1, 2, 1, 1, 1, 1], &[0; 3], &[0x00]))),
        // Rows 0 and 2 of column 1: V 1 ^ 4 = 5, which no two rows have that follow each other; H 1 ^ 1 = 0.
        case(plan_two_rows(), &[0x02, 0x00, 0x02], None),
        // Both cells of row 0: V 1 ^ 1 = 0, as the empty pattern alone has; but H 0 ^ 1 = 1.
        case(plan_two_rows(), &[0x03, 0x00, 0x00], None),
        // The last data bit of the tall plan is (8, 1), the last cell of all: as written, and that cell turned over.
        case(plan_tall(), &tall, Some(([0; 6], &tall, &[0x00, 0x10]))),
        case(plan_tall(), &last_light, Some(([1, 8, 1, 1, 1, 1], &tall, &[0x00, 0x10]))),
        // Without data: clean, either cell, and both, which have V 1 ^ 1 = 0 and H 0 ^ 1 = 1.
        case(no_data(), &[0x00], Some(([0; 6], &[0x00], &[]))),
        case(no_data(), &[0x01], Some(([1, 0, 0, 1, 1, 1], &[0x00], &[]))),
        case(no_data(), &[0x02], Some(([1, 0, 1, 1, 1, 1], &[0x00], &[]))),
        case(no_data(), &[0x03], None),
    ]);
    cases
}

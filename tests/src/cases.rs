//! The small plans of document 01 and what they do ("Small plans and what they do"), and sums of runs,
//! alterations, pairs of scans, stacks and sheets by columns that are worked out by hand.

use std::ops::Range;

use crate::answer::Answer;
use crate::model::Sums;
use crate::plan::{field, set_header_field, Plan};

pub fn plan_s() -> Plan {
    Plan {
        n1: 3,
        n2: 3,
        b1: 1,
        b2: 1,
        t: 0,
        rv: 2,
        rh: 2,
        v: vec![1, 2, 3],
        h: vec![0, 1, 2],
        checks: vec![(0, 0), (0, 1), (0, 2), (1, 0)],
    }
}

pub fn plan_t() -> Plan {
    Plan {
        n1: 2,
        n2: 4,
        b1: 1,
        b2: 2,
        t: 0,
        rv: 4,
        rh: 2,
        v: vec![1, 2, 4, 8],
        h: vec![0, 0, 1, 2],
        checks: vec![(0, 0), (0, 1), (0, 2), (0, 3), (1, 0), (1, 1)],
    }
}

/// No plan of 01, but a small one with bursts of two rows: 3 rows of 2 cells. Rows 0, 1 and 2 have the V
/// entries 1, 2 and 4. Column 0 has the H entry 0; column 1 has 1 in even rows and 2 in odd ones.
pub fn plan_two_rows() -> Plan {
    Plan {
        n1: 3,
        n2: 2,
        b1: 2,
        b2: 1,
        t: 0,
        rv: 3,
        rh: 2,
        v: vec![1, 2, 4],
        h: vec![0, 0, 1, 2],
        checks: vec![(0, 0), (0, 1), (1, 0), (1, 1), (2, 0)],
    }
}

/// No plan of 01, but one whose columns have two bytes: 9 rows of 2 cells, bursts of one cell. Row i has the V
/// entry i + 1, and column j the H entry j.
pub fn plan_tall() -> Plan {
    Plan {
        n1: 9,
        n2: 2,
        b1: 1,
        b2: 1,
        t: 0,
        rv: 4,
        rh: 1,
        v: (1..=9).collect(),
        h: vec![0, 1],
        checks: vec![(0, 0), (0, 1), (1, 0), (3, 0), (7, 0)],
    }
}

/// A plan's bytes and the number and places that the plan test gives.
pub type PlanCase = (Vec<u8>, (u64, u64, u64));

/// Cases 1, 8, 9, 10 and 11.
pub fn plan_cases() -> Vec<PlanCase> {
    let (s, t) = (plan_s(), plan_t());
    let s_v = |v: [u32; 3]| Plan { v: v.to_vec(), ..plan_s() };
    let s_h = |h: [u32; 3]| Plan { h: h.to_vec(), ..plan_s() };
    let t_h = Plan { h: vec![0, 0, 1, 1], ..plan_t() };
    let s_checks = Plan { checks: vec![(0, 0), (0, 1), (1, 0), (2, 0)], ..plan_s() };
    let mut cases = vec![
        (s.encode(), (0, 0, 0)),
        (t.encode(), (0, 0, 0)),
        (s_v([1, 2, 2]).encode(), (8, 1, 2)),
        (s_v([0, 1, 2]).encode(), (8, 0, 0)),
        (s_h([0, 1, 1]).encode(), (9, 1, 2)),
        (t_h.encode(), (9, 0, 2)),
        (s_checks.encode(), (10, 3, 0)),
    ];
    // Case 11. One number of the header of S is altered; with a number at its limit, the next
    // check that fails is told: 3 rows for a burst of 4, or an offset that no longer agrees.
    for (place, value, number) in [
        (field::N2, 698, 5),
        (field::N2, 699, 3),
        (field::N1, 512, 5),
        (field::N1, 513, 3),
        (field::B1, 4, 3),
        (field::B1, 5, 2),
        (field::RV, 32, 5),
        (field::RV, 33, 4),
    ] {
        let mut bytes = s.encode();
        set_header_field(&mut bytes, place, value);
        cases.push((bytes, (number, 0, 0)));
    }
    cases
}

/// A plan for each of the numbers 0 to 10, and for 23. Those that are accepted are S, and S with t of 1 and
/// of 2: its bursts have one cell at most, whatever t is.
pub fn plan_for_each_number() -> Vec<(Vec<u8>, Answer)> {
    let s = plan_s().encode();
    let s_t = |t| Plan { t, ..plan_s() }.encode();
    let too_large = Plan { v: vec![1, 2, 4], ..plan_s() };
    let out_of_order = Plan { checks: vec![(0, 0), (0, 2), (0, 1), (1, 0)], ..plan_s() };
    let mut plans = vec![
        (s[..21].to_vec(), (1, 0, 0)),
        (s_t(3), (23, 0, 0)),
        (s_t(1), (0, 0, 0)),
        (s_t(2), (0, 0, 0)),
        (too_large.encode(), (6, 0, 2)),
        (out_of_order.encode(), (7, 2, 0)),
    ];
    plans.extend(plan_cases().into_iter().filter(|(bytes, _)| *bytes != plan_t().encode()));
    let told = |(number, p, q): (u64, u64, u64)| Answer::refusal(number, p as usize, q as usize);
    plans.into_iter().map(|(bytes, places)| (bytes, told(places))).collect()
}

/// A plan, data, and the sheet that is written.
pub type WriteCase = (Plan, Vec<u8>, Vec<u8>);

/// Cases 2 and 5.
pub fn write_cases() -> Vec<WriteCase> {
    let s = |data: u8, sheet: [u8; 3]| (plan_s(), vec![data], sheet.to_vec());
    let t = |data: u8, sheet: [u8; 2]| (plan_t(), vec![data], sheet.to_vec());
    vec![
        s(0x00, [0x00, 0x00, 0x00]),
        s(0x01, [0x05, 0x05, 0x00]),
        s(0x1f, [0x01, 0x07, 0x07]),
        t(0x01, [0x0a, 0x0a]),
        t(0x02, [0x05, 0x05]),
        t(0x03, [0x0f, 0x0f]),
    ]
}

/// A plan, a sheet, and what is read: the six numbers, the mended sheet and the data; or 14.
pub type ReadCase = (Plan, Vec<u8>, Option<([u64; 6], Vec<u8>, Vec<u8>)>);

/// Cases 3, 4, 6 and 7. The six numbers and the data of case 6 are told in case 12.
pub fn read_cases() -> Vec<ReadCase> {
    let s = |sheet: [u8; 3], read| (plan_s(), sheet.to_vec(), read);
    let t = |sheet: [u8; 2], read| (plan_t(), sheet.to_vec(), read);
    let case3 = ([1, 2, 0, 1, 1, 1], vec![0x03, 0x03, 0x00], vec![0x02]);
    let case6 = ([2, 0, 1, 1, 2, 3], vec![0x05, 0x05], vec![0x02]);
    vec![
        s([0x03, 0x03, 0x01], Some(case3)),
        s([0x03, 0x00, 0x00], None),
        s([0x06, 0x01, 0x00], None),
        t([0x03, 0x05], Some(case6)),
        t([0x0c, 0x05], None),
        t([0x01, 0x01], None),
    ]
}

/// A plan, a sheet, and the V sum and the H sum of some of its runs.
pub type RunCase = (Plan, Vec<u8>, Vec<(Range<u32>, Sums)>);

/// Worked out by hand from the tables. Under S row i has the V entry 1, 2, 3, and column j the H entry
/// 0, 1, 2. Under T the cells of row 0 have the V entries 1, 2, 1, 2, those of row 1 have 4, 8, 4, 8, and
/// column j has the H entry 0, 0, 1, 2.
// An empty run may end below its start.
#[allow(clippy::reversed_empty_ranges)]
pub fn run_cases() -> Vec<RunCase> {
    let s = |sheet: [u8; 3], runs| (plan_s(), sheet.to_vec(), runs);
    let t = |sheet: [u8; 2], runs| (plan_t(), sheet.to_vec(), runs);
    // Case 3. Row 0 has cells 0 and 1: V 1 ^ 1 = 0, H 0 ^ 1 = 1. Row 1 has the same cells: V 2 ^ 2 = 0,
    // H 0 ^ 1 = 1. Row 2 has cell 0: V 3, H 0. Rows 0 and 1 come to 0 and 0, and the whole sheet to what
    // the reader mends, cell (2, 0).
    let case3 = vec![
        (0..1, (0, 1)),
        (1..2, (0, 1)),
        (2..3, (3, 0)),
        (0..2, (0, 0)),
        (1..3, (3, 1)),
        (0..3, (3, 0)),
        // Past the sheet, and empty.
        (0..4, (3, 0)),
        (2..u32::MAX, (3, 0)),
        (3..9, (0, 0)),
        (2..2, (0, 0)),
        (3..0, (0, 0)),
    ];
    // Row 0 has all cells: V 1 ^ 1 ^ 1 = 1, H 0 ^ 1 ^ 2 = 3. Row 1 has cells 0 and 2: V 2 ^ 2 = 0,
    // H 0 ^ 2 = 2. Row 2 has cell 1: V 3, H 1.
    let mixed =
        vec![(0..1, (1, 3)), (1..2, (0, 2)), (2..3, (3, 1)), (0..2, (1, 1)), (0..3, (2, 0))];
    // Case 4. Row 0 as in case 3, the others light. The reader answers 14; there are sums all the same.
    let case4 = vec![(0..3, (0, 1)), (0..1, (0, 1)), (1..3, (0, 0))];
    // Case 6. Row 0 has cells 0 and 1: V 1 ^ 2 = 3, H 0 ^ 0 = 0. Row 1 has cells 0 and 2: V 4 ^ 4 = 0,
    // H 0 ^ 1 = 1. The whole sheet comes to what is mended, (0, 1) and (0, 2): V 2 ^ 1 = 3, H 0 ^ 1 = 1.
    let case6 = vec![(0..1, (3, 0)), (1..2, (0, 1)), (0..2, (3, 1)), (1..1 << 16, (0, 1))];
    // Case 7. Row 0 has cells 2 and 3: V 1 ^ 2 = 3, H 1 ^ 2 = 3. Row 1 as in case 6.
    let case7 = vec![(0..1, (3, 3)), (1..2, (0, 1)), (0..2, (3, 2))];
    // Column 1 alone, in bursts of two rows. A row has the H entry of its number on the sheet, 1, 2, 1,
    // wherever the run begins.
    let by_number =
        vec![(0..1, (1, 1)), (1..2, (2, 2)), (2..3, (4, 1)), (1..3, (6, 3)), (0..3, (7, 2))];
    vec![
        s([0x03, 0x03, 0x01], case3),
        s([0x07, 0x05, 0x02], mixed),
        s([0x03, 0x00, 0x00], case4),
        t([0x03, 0x05], case6),
        t([0x0c, 0x05], case7),
        (plan_two_rows(), vec![0x02, 0x02, 0x02], by_number),
    ]
}

/// A plan, and for each position the cells that an alteration turns over, as a sheet that is dark there.
pub type AlterCase = (Plan, Vec<Vec<u8>>);

/// Worked out by hand: of each position the cell, with its V and H entry, and the check cells that have
/// the same two sums. Entries are those told at `run_cases` and at `plan_two_rows`.
pub fn alter_cases() -> Vec<AlterCase> {
    // The check cells of S have (0, 0): 1 0, (0, 1): 1 1, (0, 2): 1 2, (1, 0): 2 0.
    let s = [
        [0x05, 0x05, 0x00], // (1, 2): 2 2, as (0, 0), (0, 2) and (1, 0) have
        [0x03, 0x03, 0x00], // (1, 1): 2 1, as (0, 0), (0, 1) and (1, 0)
        [0x01, 0x01, 0x01], // (2, 0): 3 0, as (0, 0) and (1, 0)
        [0x02, 0x01, 0x02], // (2, 1): 3 1, as (0, 1) and (1, 0)
        [0x04, 0x01, 0x04], // (2, 2): 3 2, as (0, 2) and (1, 0)
    ];
    // Those of T have (0, 0): 1 0, (0, 1): 2 0, (0, 2): 1 1, (0, 3): 2 2, (1, 0): 4 0, (1, 1): 8 0.
    let t = [
        [0x0a, 0x0a], // (1, 3): 8 2, as (0, 1), (0, 3) and (1, 1)
        [0x05, 0x05], // (1, 2): 4 1, as (0, 0), (0, 2) and (1, 0)
    ];
    // And with bursts of two rows (0, 0): 1 0, (0, 1): 1 1, (1, 0): 2 0, (1, 1): 2 2, (2, 0): 4 0.
    let two_rows = [[0x03, 0x00, 0x03]]; // (2, 1): 4 1, as (0, 0), (0, 1) and (2, 0)
    vec![
        (plan_s(), s.map(Vec::from).to_vec()),
        (plan_t(), t.map(Vec::from).to_vec()),
        (plan_two_rows(), two_rows.map(Vec::from).to_vec()),
    ]
}

/// A plan, two scans, the data that they give or the number that they are turned back with, and the row
/// where they first differ, if they do.
pub type TwoCase = (Plan, [Vec<u8>; 2], Result<u8, u64>, Option<usize>);

/// Worked out by hand from cases 2 to 7, `alter_cases` and the cells that differ from a written sheet.
pub fn two_cases() -> Vec<TwoCase> {
    let s = |scans: [[u8; 3]; 2], read, row| (plan_s(), scans.map(Vec::from), read, row);
    let t = |scans: [[u8; 2]; 2], read, row| (plan_t(), scans.map(Vec::from), read, row);
    let rows = |scans: [[u8; 3]; 2], read, row| (plan_two_rows(), scans.map(Vec::from), read, row);
    vec![
        // 03 03 00 is written from data 02: as written; (2, 0) turned over in either scan or in both, and
        // (0, 0) in the other.
        s([[0x03, 0x03, 0x00], [0x03, 0x03, 0x00]], Ok(0x02), None),
        s([[0x03, 0x03, 0x01], [0x03, 0x03, 0x00]], Ok(0x02), Some(2)),
        s([[0x03, 0x03, 0x00], [0x03, 0x03, 0x01]], Ok(0x02), Some(2)),
        s([[0x03, 0x03, 0x01], [0x03, 0x03, 0x01]], Ok(0x02), None),
        s([[0x03, 0x03, 0x01], [0x02, 0x03, 0x00]], Ok(0x02), Some(0)),
        s([[0x02, 0x03, 0x00], [0x03, 0x03, 0x01]], Ok(0x02), Some(0)),
        // (0, 2) is a check cell; (1, 1) holds the only data bit that is 1.
        s([[0x03, 0x03, 0x00], [0x07, 0x03, 0x00]], Ok(0x02), Some(0)),
        s([[0x03, 0x01, 0x00], [0x03, 0x03, 0x00]], Ok(0x02), Some(1)),
        s([[0x03, 0x03, 0x00], [0x03, 0x01, 0x00]], Ok(0x02), Some(1)),
        // The sheets of case 4 cannot be mended.
        s([[0x03, 0x03, 0x01], [0x03, 0x00, 0x00]], Ok(0x02), Some(1)),
        s([[0x03, 0x00, 0x00], [0x03, 0x03, 0x01]], Ok(0x02), Some(1)),
        s([[0x03, 0x00, 0x00], [0x06, 0x01, 0x00]], Err(14), Some(0)),
        s([[0x03, 0x00, 0x00], [0x03, 0x00, 0x00]], Err(14), None),
        // 05 05 00 is written from data 01: as written, and with (2, 0) or (2, 2) turned over.
        s([[0x03, 0x03, 0x00], [0x05, 0x05, 0x00]], Err(19), Some(0)),
        s([[0x03, 0x03, 0x01], [0x05, 0x05, 0x01]], Err(19), Some(0)),
        s([[0x05, 0x05, 0x04], [0x03, 0x03, 0x01]], Err(19), Some(0)),
        // 05 05 is written from data 02. Case 6 has (0, 1) and (0, 2) turned over; then the same columns
        // of row 1, and the check cells (1, 0) and (1, 1).
        t([[0x03, 0x05], [0x05, 0x05]], Ok(0x02), Some(0)),
        t([[0x03, 0x05], [0x05, 0x03]], Ok(0x02), Some(0)),
        t([[0x05, 0x05], [0x05, 0x03]], Ok(0x02), Some(1)),
        t([[0x05, 0x05], [0x05, 0x06]], Ok(0x02), Some(1)),
        // The sheets of case 7 cannot be mended.
        t([[0x03, 0x05], [0x0c, 0x05]], Ok(0x02), Some(0)),
        t([[0x01, 0x01], [0x03, 0x05]], Ok(0x02), Some(0)),
        t([[0x0c, 0x05], [0x01, 0x01]], Err(14), Some(0)),
        // 0a 0a is written from data 01: as written, with (0, 0) turned over, and with (0, 2) and (0, 3),
        // which leaves row 0 as (0, 0) and (0, 1) turned over leave that of 05 05.
        t([[0x05, 0x05], [0x0a, 0x0a]], Err(19), Some(0)),
        t([[0x03, 0x05], [0x0b, 0x0a]], Err(19), Some(0)),
        t([[0x06, 0x05], [0x06, 0x0a]], Err(19), Some(1)),
        // 03 00 03 is written from data 01: column 1 turned over in rows 0 and 1, and in rows 1 and 2.
        rows([[0x01, 0x02, 0x03], [0x03, 0x00, 0x03]], Ok(0x01), Some(0)),
        rows([[0x01, 0x02, 0x03], [0x03, 0x02, 0x01]], Ok(0x01), Some(0)),
        rows([[0x03, 0x00, 0x03], [0x03, 0x02, 0x01]], Ok(0x01), Some(1)),
        rows([[0x01, 0x02, 0x03], [0x00, 0x00, 0x00]], Err(19), Some(0)),
        // The light sheet, and with the only data cell, (2, 1), turned over.
        rows([[0x00, 0x00, 0x00], [0x00, 0x00, 0x02]], Ok(0x00), Some(2)),
    ]
}

/// A stack and the buffers beside it, as they are before a call and after it: stack, numbers, data.
pub type StackCase = (Plan, [Vec<u8>; 3], [Vec<u8>; 3]);

/// Worked out by hand from cases 3 to 7, `alter_cases` and the header's rule. 0xbb is what a buffer held.
pub fn stack_cases() -> Vec<StackCase> {
    let case = |plan: Plan, [stack, after]: [&[u8]; 2], numbers: &[[u8; 18]], data: &[u8]| {
        let held = [stack.to_vec(), vec![0xbb; 18 * numbers.len()], vec![0xbb; data.len()]];
        (plan, held, [after.to_vec(), numbers.concat(), data.to_vec()])
    };
    let refused = |number, p| [number, 0, p, 0, 0, 0, 0, 0, 0, 0, 0, 0, 0, 0, 0, 0, 0, 0];
    let clean = refused(0, 0);
    let mended = |[cells, top, left, height, width, pattern]: [u8; 6]| {
        [0, 0, 0, 0, 0, 0, cells, 0, top, 0, left, 0, height, 0, width, 0, pattern, 0]
    };
    vec![
        // No sheets: the count alone.
        case(plan_s(), [&[0, 0], &[0, 0]], &[], &[]),
        // Case 6 of 01 in room 1: 03 05 is mended to 05 05, two cells of row 0 from column 1 on.
        case(
            plan_t(),
            [&[1, 0, 1, 0, 8, 0, 0, 0, 0x03, 0x05], &[1, 0, 1, 0, 8, 0, 0, 0, 0x05, 0x05]],
            &[mended([2, 0, 1, 1, 2, 3])],
            &[0x02],
        ),
        // Case 4: nothing mends it, and the place of its data stays.
        case(plan_s(), [&[1, 0, 0, 0, 8, 0, 0, 0, 3, 0, 0]; 2], &[refused(14, 0)], &[0xbb]),
        // Cases 3 and 4, in rooms 0 and 1: 03 03 01 is mended to 03 03 00, and 03 00 00 stays.
        case(
            plan_s(),
            [
                &[2, 0, 0, 0, 14, 0, 0, 0, 1, 0, 17, 0, 0, 0, 0x03, 0x03, 0x01, 0x03, 0x00, 0x00],
                &[2, 0, 0, 0, 14, 0, 0, 0, 1, 0, 17, 0, 0, 0, 0x03, 0x03, 0x00, 0x03, 0x00, 0x00],
            ],
            &[mended([1, 2, 0, 1, 1, 1]), refused(14, 0)],
            &[0x02, 0xbb],
        ),
        // An unused bit in row 1 of the first, and the second is written from data 01 but for (2, 2).
        case(
            plan_s(),
            [
                &[2, 0, 1, 0, 14, 0, 0, 0, 1, 0, 17, 0, 0, 0, 0x03, 0x83, 0x40, 0x05, 0x05, 0x04],
                &[2, 0, 1, 0, 14, 0, 0, 0, 1, 0, 17, 0, 0, 0, 0x03, 0x83, 0x40, 0x05, 0x05, 0x00],
            ],
            &[refused(13, 1), mended([1, 2, 2, 1, 1, 1])],
            &[0xbb, 0x01],
        ),
        // Under T, in rooms 1, 0 and 1: an unused bit in row 1; 0a 0a as written from data 01; the same with
        // (0, 0) turned over.
        case(
            plan_t(),
            [
                &[
                    3, 0, 1, 0, 20, 0, 0, 0, 0, 0, 22, 0, 0, 0, 1, 0, 24, 0, 0, 0, 0x05, 0x15,
                    0x0a, 0x0a, 0x0b, 0x0a,
                ],
                &[
                    3, 0, 1, 0, 20, 0, 0, 0, 0, 0, 22, 0, 0, 0, 1, 0, 24, 0, 0, 0, 0x05, 0x15,
                    0x0a, 0x0a, 0x0a, 0x0a,
                ],
            ],
            &[refused(13, 1), clean, mended([1, 0, 0, 1, 1, 1])],
            &[0xbb, 0x01, 0x01],
        ),
    ]
}

/// A plan, data, and the sheet that is written: by rows and by columns.
pub type ColumnCase = (Plan, Vec<u8>, Vec<u8>, Vec<u8>);

/// Worked out by hand from cases 2 and 5 and `alter_cases`. Row 0 is the lowest bit of a column's first byte.
pub fn column_cases() -> Vec<ColumnCase> {
    let case = |plan: Plan, data: &[u8], rows: &[u8], columns: &[u8]| {
        (plan, data.to_vec(), rows.to_vec(), columns.to_vec())
    };
    vec![
        case(plan_s(), &[0x00], &[0x00, 0x00, 0x00], &[0x00, 0x00, 0x00]),
        // Rows 0 and 1 of columns 0 and 2; of columns 0 and 1, alike in both layouts.
        case(plan_s(), &[0x01], &[0x05, 0x05, 0x00], &[0x03, 0x00, 0x03]),
        case(plan_s(), &[0x02], &[0x03, 0x03, 0x00], &[0x03, 0x03, 0x00]),
        // All rows of column 0, and rows 1 and 2 of the others.
        case(plan_s(), &[0x1f], &[0x01, 0x07, 0x07], &[0x07, 0x06, 0x06]),
        case(plan_t(), &[0x01], &[0x0a, 0x0a], &[0x00, 0x03, 0x00, 0x03]),
        case(plan_t(), &[0x02], &[0x05, 0x05], &[0x03, 0x00, 0x03, 0x00]),
        case(plan_t(), &[0x03], &[0x0f, 0x0f], &[0x03, 0x03, 0x03, 0x03]),
        case(plan_two_rows(), &[0x01], &[0x03, 0x00, 0x03], &[0x05, 0x05]),
        // The first data bit is (1, 1), in an odd row: V 2, H 1, as (0, 0), (0, 1) and (1, 0) have.
        case(
            plan_tall(),
            &[0x01, 0x00],
            &[0x03, 0x03, 0x00, 0x00, 0x00, 0x00, 0x00, 0x00, 0x00],
            &[0x03, 0x00, 0x03, 0x00],
        ),
        // The last, the 13th, is (8, 1): V 9, H 1, as (0, 1) and (7, 0). Row 8 is in a column's second byte.
        case(
            plan_tall(),
            &[0x00, 0x10],
            &[0x02, 0x00, 0x00, 0x00, 0x00, 0x00, 0x00, 0x01, 0x02],
            &[0x80, 0x00, 0x01, 0x01],
        ),
    ]
}

/// Sheets by columns, and what is read: those of cases 3, 4, 6 and 7, and others worked out by hand.
pub fn column_read_cases() -> Vec<ReadCase> {
    let case = |plan: Plan, sheet: &[u8], read: Option<([u64; 6], &[u8], &[u8])>| {
        let read = read.map(|(numbers, mended, data)| (numbers, mended.to_vec(), data.to_vec()));
        (plan, sheet.to_vec(), read)
    };
    vec![
        case(
            plan_s(),
            &[0x07, 0x03, 0x00],
            Some(([1, 2, 0, 1, 1, 1], &[0x03, 0x03, 0x00], &[0x02])),
        ),
        case(plan_s(), &[0x01, 0x01, 0x00], None),
        case(plan_s(), &[0x02, 0x01, 0x01], None),
        case(
            plan_t(),
            &[0x03, 0x01, 0x02, 0x00],
            Some(([2, 0, 1, 1, 2, 3], &[0x03, 0x00, 0x03, 0x00], &[0x02])),
        ),
        case(plan_t(), &[0x02, 0x00, 0x03, 0x01], None),
        case(plan_t(), &[0x03, 0x00, 0x00, 0x00], None),
        // 05 05 is written from data 01: rows 0 and 1 of column 1 turned over.
        case(plan_two_rows(), &[0x05, 0x06], Some(([2, 0, 1, 2, 1, 3], &[0x05, 0x05], &[0x01]))),
        // (8, 0) turned over on the light sheet, and (8, 1) on that of the last data bit.
        case(
            plan_tall(),
            &[0x00, 0x01, 0x00, 0x00],
            Some(([1, 8, 0, 1, 1, 1], &[0x00, 0x00, 0x00, 0x00], &[0x00, 0x00])),
        ),
        case(
            plan_tall(),
            &[0x80, 0x00, 0x01, 0x00],
            Some(([1, 8, 1, 1, 1, 1], &[0x80, 0x00, 0x01, 0x01], &[0x00, 0x10])),
        ),
        // Row 0 of both columns: V 1 ^ 1 = 0, H 0 ^ 1 = 1, which no cell has.
        case(plan_tall(), &[0x01, 0x00, 0x01, 0x00], None),
    ]
}

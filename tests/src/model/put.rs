//! Putting a blot back, by the words of requests k and m of document 02.

use super::buffers::check_putting_back;
use super::sheet::{turn_over, Cell};
use super::{accept, smallest_rectangle};
use crate::answer::Answer;
use crate::plan::Plan;

/// Why check 22 turns an answer back: 02's reasons, in its order, and last that of request m.
#[derive(Clone, Copy, Debug, PartialEq, Eq, PartialOrd, Ord)]
pub enum Fault {
    /// The rectangle exceeds the plan's burst.
    Exceeds,
    /// It leaves the sheet.
    Leaves,
    /// It is not the smallest for its pattern.
    NotSmallest,
    /// The pattern has a bit beyond it.
    Beyond,
    /// The pattern disagrees with the cell count.
    Count,
    /// An answer of no cells is not all zeros.
    None,
    /// The answer is a refusal.
    Refusal,
    /// Any other bit of it is not 0.
    OtherBit,
    /// It tells of more than t cells, and t is not 0.
    MoreThanT,
}

pub const FAULTS: [Fault; 9] = [
    Fault::Exceeds,
    Fault::Leaves,
    Fault::NotSmallest,
    Fault::Beyond,
    Fault::Count,
    Fault::None,
    Fault::Refusal,
    Fault::OtherBit,
    Fault::MoreThanT,
];

/// The fields of an answer end here.
const FIELDS_END: u32 = 51;

/// All reasons to turn these 64 bits back. A refusal tells of no rectangle, and has no other reason.
pub fn faults(plan: &Plan, answer: u64) -> Vec<Fault> {
    let told = Answer::told_by(answer);
    if told.is_refusal() {
        return vec![Fault::Refusal];
    }
    FAULTS.into_iter().filter(|&fault| has(plan, answer, told, fault)).collect()
}

/// Is this reason there? The answer is no refusal.
fn has(plan: &Plan, answer: u64, told: Answer, fault: Fault) -> bool {
    let sizes = [plan.n1, plan.n2, plan.b1, plan.b2, plan.t];
    let [n1, n2, b1, b2, t] = sizes.map(|size| size as u64);
    let Answer { cells, top, left, height, width, pattern, .. } = told;
    match fault {
        Fault::Exceeds => height > b1 || width > b2,
        Fault::Leaves => top + height > n1 || left + width > n2,
        Fault::NotSmallest => {
            let smallest = smallest_rectangle(&cells_told(told));
            let told_of_it = [smallest.top, smallest.left, smallest.height, smallest.width];
            smallest.cells > 0 && told_of_it != [top, left, height, width]
        }
        Fault::Beyond => pattern >> (height * width).min(63) != 0,
        Fault::Count => u64::from(pattern.count_ones()) != cells,
        Fault::None => cells == 0 && told.mended() != [0; 6],
        Fault::Refusal => told.is_refusal(),
        Fault::OtherBit => answer >> FIELDS_END != 0,
        Fault::MoreThanT => t != 0 && cells > t,
    }
}

/// The cells of an answer: row r and column s of its rectangle if bit r × width + s of the pattern is 1.
pub fn cells_told(told: Answer) -> Vec<Cell> {
    let mut cells = Vec::new();
    for r in 0..told.height {
        for s in 0..told.width {
            if told.pattern >> (r * told.width + s) & 1 == 1 {
                cells.push(((told.top + r) as usize, (told.left + s) as usize));
            }
        }
    }
    cells
}

/// Put a burst back: turn exactly the cells of the answer over. A refusal changes nothing.
pub fn put_back(plan: &[u8], sheet: &mut [u8], answer: u64) -> Answer {
    match accept(plan) {
        Ok(plan) => put_back_accepted(&plan, sheet, answer),
        Err(refusal) => refusal,
    }
}

/// `put_back` under a plan that is known to be accepted: checks 11, 13 and 22.
pub fn put_back_accepted(plan: &Plan, sheet: &mut [u8], answer: u64) -> Answer {
    if let Err(refusal) = check_putting_back(plan, sheet, answer) {
        return refusal;
    }
    for at in cells_told(Answer::told_by(answer)) {
        turn_over(plan, sheet, at);
    }
    Answer::default()
}

//! Putting a burst back beyond the plan test, in plain Rust: the unused bits of each row, and the cells of the answer.
//! That the answer is one of a burst is looked at with masks: of the pattern the first and the last row and column.

use crate::answer::Answer;
use crate::model::{check_sheet, turn_over};
use crate::plan::Plan;

/// Put back under an accepted plan: checks 11, 13 and 22, then the cells.
pub fn put_back_accepted(plan: &Plan, sheet: &mut [u8], answer: u64) -> Result<(), Answer> {
    check_sheet(plan, sheet)?;
    Answer::refuse_if(!is_of_a_burst(plan, answer), 22)?;
    let Answer { top, left, width, mut pattern, .. } = Answer::told_by(answer);
    while pattern != 0 {
        let at = u64::from(pattern.trailing_zeros());
        turn_over(plan, sheet, ((top + at / width) as usize, (left + at % width) as usize));
        pattern &= pattern - 1;
    }
    Ok(())
}

/// Are these the 64 bits of the answer of a burst?
fn is_of_a_burst(plan: &Plan, answer: u64) -> bool {
    let told = Answer::told_by(answer);
    let Answer { cells, top, left, height, width, pattern, .. } = told;
    if told.is_refusal() || answer >> 51 != 0 || u64::from(pattern.count_ones()) != cells {
        return false;
    }
    if cells == 0 {
        return answer == 0;
    }
    let [n1, n2, b1, b2] = [plan.n1, plan.n2, plan.b1, plan.b2].map(|size| size as u64);
    if cells > plan.most_cells() as u64 {
        return false;
    }
    let fits = (1..=b1).contains(&height) && (1..=b2).contains(&width);
    if !fits || top + height > n1 || left + width > n2 || pattern >> (height * width) != 0 {
        return false;
    }
    let row = (1 << width) - 1;
    let column = (0..height).fold(0, |column, r| column | 1 << (r * width));
    let edges = [row, row << ((height - 1) * width), column, column << (width - 1)];
    edges.iter().all(|edge| pattern & edge != 0)
}

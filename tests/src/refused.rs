//! What is turned back: plans, lengths and unused bits with what is told of them, for sheets in either layout.

use crate::answer::Answer;
use crate::cases::{plan_for_each_number, plan_s, plan_t, plan_tall};
use crate::damage::alter_length;
use crate::kinds::{sheet_in, KINDS};
use crate::model::Layout;
use crate::plan::Plan;
use crate::rng::Rng;

/// Plans and what is told of them: one for each number, of the size of S; and T and a tall plan, of which the two
/// layouts have different lengths. Beside each a plan of the same size that is accepted.
pub fn plans_and_answers() -> Vec<(Vec<u8>, Answer, Plan)> {
    let of_s = plan_for_each_number().into_iter().map(|(bytes, told)| (bytes, told, plan_s()));
    let others = [plan_t(), plan_tall()].map(|plan| (plan.encode(), Answer::default(), plan));
    of_s.chain(others).collect()
}

/// Lengths about the right one, and the other layout's.
pub fn lengths(layout: Layout, plan: &Plan) -> Vec<usize> {
    let right = layout.sheet_len(plan);
    vec![right, layout.other().sheet_len(plan), 0, 1, right - 1, right + 1, 2 * right]
}

/// The first refusal of these, or the answer of a call that succeeds.
pub fn first_of(all: &[Answer]) -> Answer {
    all.iter().copied().find(|told| told.is_refusal()).unwrap_or_default()
}

pub fn number_if(fails: bool, number: u64) -> Answer {
    Answer::refusal(if fails { number } else { 0 }, 0, 0)
}

/// Lines in which an unused bit is to be 1: none, one, or two.
pub fn spoilt_lines(layout: Layout, plan: &Plan) -> Vec<Vec<usize>> {
    let last = layout.lines(plan) - 1;
    vec![vec![], vec![0], vec![last], vec![last / 2, last]]
}

/// The sheet, in which the lines have an unused bit that is 1, as far as it has their last bytes.
pub fn spoilt(layout: Layout, plan: &Plan, mut sheet: Vec<u8>, lines: &[usize]) -> Vec<u8> {
    for line in lines {
        if let Some(byte) = sheet.get_mut((line + 1) * layout.line_len(plan) - 1) {
            *byte |= 0x80;
        }
    }
    sheet
}

/// What check 13 tells of these lines.
pub fn unused(layout: Layout, plan: &Plan, lines: &[usize]) -> Answer {
    let told = |line: &usize| Answer::refusal(13, (line + 1) * layout.line_len(plan) - 1, 0);
    lines.first().map_or(Answer::default(), told)
}

/// A sheet of a random kind in this layout; sometimes it has another length, or that of the other layout.
pub fn any_sheet(layout: Layout, plan: &Plan, rng: &mut Rng) -> Vec<u8> {
    let kind = if rng.one_in(4) { rng.pick(&KINDS) } else { rng.pick(&KINDS[..2]) };
    let mut sheet = sheet_in(layout, plan, kind, rng);
    if rng.one_in(8) {
        sheet.resize(layout.other().sheet_len(plan), 0);
    }
    if rng.one_in(8) {
        alter_length(&mut sheet, rng);
    }
    sheet
}

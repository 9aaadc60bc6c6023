//! The line that the programs `sheetread` and `trialread` print for what stands on their standard input.

use crate::model;
use crate::plan::{field, header_field, HEADER_LEN};

/// How many bytes of standard input are read.
pub const INPUT_LIMIT: usize = 65_536;

/// The line, without its end. The data is one field, its bytes not parted from each other.
pub fn line(input: &[u8]) -> String {
    let input = &input[..input.len().min(INPUT_LIMIT)];
    let (plan, sheet) = input.split_at(plan_len(input));
    let mut data = Vec::new();
    let answer = match model::accept(plan) {
        Ok(plan) => {
            data.resize(plan.data_len(), 0);
            model::read_accepted(&plan, &mut sheet.to_vec(), &mut data)
        }
        Err(refusal) => refusal,
    };
    if answer.is_refusal() {
        return format!("no {} {} {}", answer.number, answer.p, answer.q);
    }
    let numbers: String = answer.mended().iter().map(|number| format!(" {number}")).collect();
    let digits: String = data.iter().map(|byte| format!("{byte:02x}")).collect();
    let part = if data.is_empty() { "" } else { " " };
    format!("ok{numbers}{part}{digits}")
}

/// How much of the input is the plan: 22 bytes, or as many as the length field says if that is
/// more, or all there is.
fn plan_len(input: &[u8]) -> usize {
    if input.len() < HEADER_LEN {
        return input.len();
    }
    let told = usize::from(header_field(input, field::LENGTH));
    told.max(HEADER_LEN).min(input.len())
}

//! Making a plan, by the words of requests a and m of document 02.

use super::accept::{failing_strips, failing_windows};
use super::algebra::Span;
use super::sheet::cells;
use crate::answer::Answer;
use crate::given::Given;
use crate::plan::Plan;

/// The plan that is made where a buffer of `plan_len` bytes is lent for it, or the refusal of the
/// first check that fails: 2, 3, 4, 23, 5, 15, 8, 9, 16 in this order.
pub fn made_plan(given: &Given, plan_len: usize) -> Result<Plan, Answer> {
    let mut plan = given.sizes();
    plan.check_sizes()?;
    Answer::refuse_if(plan_len != given.plan_len(), 5)?;
    Answer::refuse_if(given.polynomials().into_iter().any(bad_polynomial), 15)?;
    plan.v = (0..plan.n1 * plan.b2).map(|k| power(k, plan.rv, given.v_low)).collect();
    plan.h = (0..plan.n2 * plan.b1).map(|k| power(k, plan.rh, given.h_low)).collect();
    Answer::refuse_at(failing_windows(&plan), 8)?;
    Answer::refuse_at(failing_strips(&plan), 9)?;
    plan.checks = taken_cells(&plan);
    Answer::refuse_if(plan.checks.len() < plan.rv + plan.rh, 16)?;
    Ok(plan)
}

/// Is the constant term 0, or is there a coefficient at or above the degree?
fn bad_polynomial((degree, low): (u32, u32)) -> bool {
    low & 1 == 0 || u64::from(low) >> degree != 0
}

/// z to the power k modulo the polynomial, by long division: from z^k down to the degree, each power
/// that is there is taken away with a multiple of the polynomial. What is left is below the degree.
pub fn power(k: usize, degree: usize, low: u32) -> u32 {
    let polynomial = |i: usize| i == degree || low >> i & 1 == 1;
    let mut rest = vec![false; k + 1];
    rest[k] = true;
    for top in (degree..=k).rev() {
        if rest[top] {
            for i in 0..=degree {
                rest[top - degree + i] ^= polynomial(i);
            }
        }
    }
    let left = rest.iter().take(degree).enumerate().filter(|(_, &there)| there);
    left.map(|(i, _)| 1 << i).sum()
}

/// Check cells in sheet order, each if its joint entry is no exclusive-or of those taken.
fn taken_cells(plan: &Plan) -> Vec<(u16, u16)> {
    let mut taken = Span::default();
    let free = cells(plan).filter(|&(i, j)| taken.add(plan.joint(i, j)));
    free.map(|(i, j)| (i as u16, j as u16)).collect()
}

//! Making a plan in plain Rust: each table by one shift an entry, the pair tests that are asked for,
//! and the check cells row by row until there are enough.

use crate::answer::{Answer, Places};
use crate::given::Given;
use crate::make::{powers, Polynomial};
use crate::plan::{Plan, HEADER_LEN};

/// Make the plan in the buffer that is lent.
pub fn make(
    given: &Given,
    buffer: &mut [u8],
    windows: fn(&Plan) -> Places,
    strips: fn(&Plan) -> Places,
) -> Result<(), Answer> {
    let mut plan = given.sizes();
    plan.check_sizes()?;
    Answer::refuse_if(buffer.len() != given.plan_len(), 5)?;
    let [v, h] = given.polynomials();
    Answer::refuse_if([v, h].iter().any(|&(r, low)| low & 1 == 0 || low.ilog2() >= r), 15)?;
    plan.v = powers(plan.n1 * plan.b2, polynomial(v));
    plan.h = powers(plan.n2 * plan.b1, polynomial(h));
    Answer::refuse_at(windows(&plan), 8)?;
    Answer::refuse_at(strips(&plan), 9)?;
    plan.checks = checks(&plan);
    Answer::refuse_if(plan.checks.len() < plan.rv + plan.rh, 16)?;
    lay(&plan, buffer);
    Ok(())
}

fn polynomial((degree, low): (u32, u32)) -> Polynomial {
    Polynomial { degree: degree as usize, low }
}

/// Check cells in sheet order, until there are rv + rh.
fn checks(plan: &Plan) -> Vec<(u16, u16)> {
    let most = plan.rv + plan.rh;
    let mut taken = Vec::with_capacity(most);
    let mut basis = Vec::with_capacity(most);
    for i in 0..plan.n1 {
        let v = plan.v[i * plan.b2..(i + 1) * plan.b2].iter().cycle();
        let h = plan.h[i % plan.b1..].iter().step_by(plan.b1);
        for ((j, &h), &v) in h.enumerate().zip(v) {
            if taken.len() == most {
                return taken;
            }
            if add(&mut basis, u64::from(v) | u64::from(h) << plan.rv) {
                taken.push((i as u16, j as u16));
            }
        }
    }
    taken
}

/// Add a vector; false if it is an exclusive-or of those before. Of a vector and its exclusive-or with
/// a member, the smaller is the one without the member's highest bit.
fn add(basis: &mut Vec<u64>, vector: u64) -> bool {
    let rest = basis.iter().fold(vector, |rest, &member| rest.min(rest ^ member));
    if rest != 0 {
        basis.push(rest);
    }
    rest != 0
}

/// The plan's bytes.
fn lay(plan: &Plan, buffer: &mut [u8]) {
    let (header, rest) = buffer.split_at_mut(HEADER_LEN);
    let sizes = [plan.n1, plan.n2, plan.b1, plan.b2, plan.rv, plan.rh];
    let numbers = sizes.into_iter().chain(plan.layout()).chain([plan.t]);
    for (bytes, number) in header.chunks_exact_mut(2).zip(numbers) {
        bytes.copy_from_slice(&(number as u16).to_le_bytes());
    }
    let pairs = plan.checks.iter().map(|&(i, j)| u32::from(i) | u32::from(j) << 16);
    let entries = plan.v.iter().chain(&plan.h).copied().chain(pairs);
    for (bytes, entry) in rest.chunks_exact_mut(4).zip(entries) {
        bytes.copy_from_slice(&entry.to_le_bytes());
    }
}

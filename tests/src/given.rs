//! What the maker of plans is given (request a of document 02), and the house numbers (request d).

use crate::make::{random_shape, Polynomial, H_3X3, V_3X3};
use crate::plan::Plan;
use crate::rng::Rng;

/// The nine numbers, which may be any. The polynomials are z^rv and z^rh plus the powers below that
/// `v_low` and `h_low` tell, bit i for z^i.
#[derive(Clone, Copy, Debug, PartialEq, Eq)]
pub struct Given {
    pub n1: u32,
    pub n2: u32,
    pub b1: u32,
    pub b2: u32,
    pub t: u32,
    pub rv: u32,
    pub v_low: u32,
    pub rh: u32,
    pub h_low: u32,
}

/// The house numbers (request d of 02): 3 × 3 bursts on 512 rows and 698 columns, and the house
/// polynomials.
pub const HOUSE: Given = Given::new([512, 698, 3, 3], V_3X3, H_3X3);

impl Given {
    /// Bursts of b1 × b2 on n1 rows and n2 columns, which may have any of their cells, and two polynomials.
    pub const fn new(sizes: [u32; 4], v: Polynomial, h: Polynomial) -> Given {
        let [n1, n2, b1, b2] = sizes;
        let (rv, rh) = (v.degree as u32, h.degree as u32);
        Given { n1, n2, b1, b2, t: 0, rv, v_low: v.low, rh, h_low: h.low }
    }

    /// A plan of these sizes, its tables and its check list left empty.
    pub fn sizes(&self) -> Plan {
        let numbers = [self.n1, self.n2, self.b1, self.b2, self.t, self.rv, self.rh];
        let [n1, n2, b1, b2, t, rv, rh] = numbers.map(|number| number as usize);
        Plan { n1, n2, b1, b2, t, rv, rh, v: vec![], h: vec![], checks: vec![] }
    }

    /// The length of the plan, by the rule. The sizes must be good.
    pub fn plan_len(&self) -> usize {
        let [.., len] = self.sizes().layout();
        len
    }

    /// The numbers by their place in the call, to alter one.
    pub fn numbers_mut(&mut self) -> [&mut u32; 9] {
        let Given { n1, n2, b1, b2, t, rv, v_low, rh, h_low } = self;
        [n1, n2, b1, b2, t, rv, v_low, rh, h_low]
    }

    /// Each degree and what is below it.
    pub fn polynomials(&self) -> [(u32, u32); 2] {
        [(self.rv, self.v_low), (self.rh, self.h_low)]
    }
}

/// Numbers of a small plan for bursts of b1 × b2, any of their cells or at most one or two, with
/// polynomials that pass check 15. The degrees are most often such that a plan can be made, else any.
pub fn random_given(rng: &mut Rng, b1: usize, b2: usize) -> Given {
    let more = if rng.one_in(10) { 30 } else { 8 };
    let shape = loop {
        if let Some(shape) = random_shape(rng, b1, b2, more) {
            break shape;
        }
    };
    let mut polynomial = |degree| {
        let degree = if rng.one_in(8) { rng.within(1, 32) } else { degree };
        Polynomial { degree, low: rng.bits(degree) | 1 }
    };
    let (v, h) = (polynomial(shape.rv), polynomial(shape.rh));
    let given = Given::new([shape.n1, shape.n2, b1, b2].map(|size| size as u32), v, h);
    Given { t: shape.t as u32, ..given }
}

/// The numbers with one altered: at, within or beyond its limits, or such that fewer of its bits would
/// make it good.
pub fn altered(given: &Given, rng: &mut Rng) -> Given {
    let mut other = *given;
    let place = rng.below(9);
    let near = match place {
        0 => [0, given.b1 - 1, given.b1, 40, 513],
        1 => [0, given.b2 - 1, given.b2, 40, 699],
        2 | 3 => [0, 1, 4, 5, 6],
        4 => [0, 1, 2, 3, 4],
        5 | 7 => [0, 1, 32, 33, 64],
        6 => polynomials_near(given.rv, given.v_low, rng),
        _ => polynomials_near(given.rh, given.h_low, rng),
    };
    let any = [u32::MAX, 1 << 31, 1 << 16, rng.bits(32)];
    let number = &mut *other.numbers_mut()[place];
    *number = match rng.below(5) {
        0 => *number ^ 1 << rng.within(if place == 4 { 2 } else { 5 }, 31),
        1 => rng.pick(&any),
        _ => rng.pick(&near),
    };
    other
}

/// Coefficients that check 15 turns back, and others.
fn polynomials_near(degree: u32, low: u32, rng: &mut Rng) -> [u32; 5] {
    let above = 1u32.checked_shl(degree).unwrap_or(0);
    [0, low & !1, low | above, low | 1 << rng.below(32), rng.bits(32)]
}

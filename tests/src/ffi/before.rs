//! Plans for the archive of an earlier commit. Before request m of 02 a plan's header had ten numbers, in
//! 20 bytes, and the maker was not given t; which form an archive takes is found out by its plan test.
//! A plan has an older form if its t is 0.

use std::mem::transmute;
use std::sync::OnceLock;

use super::{target, BEFORE};
use crate::cases::plan_s;
use crate::given::Given;
use crate::plan::{field, header_field, set_header_field, Plan, HEADER_LEN};

/// Bytes of the header in the older form: all but those of the last number.
const OLDER_HEADER_LEN: usize = 20;

/// Does the archive of the earlier commit take plans of the older form? It is asked once.
fn takes_older_plans() -> bool {
    static TAKES: OnceLock<bool> = OnceLock::new();
    *TAKES.get_or_init(|| BEFORE.plan_test(&older(&plan_s())) == 0)
}

/// The bytes of a plan in the form that the archive takes.
pub fn plan_bytes(plan: &Plan) -> Vec<u8> {
    if takes_older_plans() {
        older(plan)
    } else {
        plan.encode()
    }
}

/// The plan without t: two bytes fewer, and each offset and the length so much lower.
fn older(plan: &Plan) -> Vec<u8> {
    assert_eq!(plan.t, 0, "bursts of few cells are newer");
    let mut bytes = plan.encode();
    for place in [field::V_OFFSET, field::H_OFFSET, field::CHECK_OFFSET, field::LENGTH] {
        let lower = header_field(&bytes, place) - (HEADER_LEN - OLDER_HEADER_LEN) as u16;
        set_header_field(&mut bytes, place, lower);
    }
    bytes.drain(OLDER_HEADER_LEN..HEADER_LEN);
    bytes
}

/// The length of the plan that the archive makes of these numbers, which must be good.
pub fn plan_len(given: &Given) -> usize {
    let shorter = if takes_older_plans() { HEADER_LEN - OLDER_HEADER_LEN } else { 0 };
    given.plan_len() - shorter
}

/// The maker of plans of the earlier commit, which has to have one.
#[rustfmt::skip]
pub fn plan_make(given: &Given, plan: &mut [u8]) -> u64 {
    type Older = unsafe extern "C" fn(
        u32, u32, u32, u32, u32, u32, u32, u32, *mut u8, usize,
    ) -> u64;
    type Newer = unsafe extern "C" fn(
        u32, u32, u32, u32, u32, u32, u32, u32, u32, *mut u8, usize,
    ) -> u64;
    extern "C" {
        fn before_plan_make();
    }
    let call = before_plan_make as *const ();
    let Given { n1, n2, b1, b2, t, rv, v_low, rh, h_low } = *given;
    let (at, len) = (target(plan, false), plan.len());
    // SAFETY: the archive has one of the two makers, that which goes with the form of its plans; a mutable
    // slice is writable for its length.
    unsafe {
        if takes_older_plans() {
            let call = transmute::<*const (), Older>(call);
            call(n1, n2, b1, b2, rv, v_low, rh, h_low, at, len)
        } else {
            let call = transmute::<*const (), Newer>(call);
            call(n1, n2, b1, b2, t, rv, v_low, rh, h_low, at, len)
        }
    }
}

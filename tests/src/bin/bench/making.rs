//! Making plans, the house plan among them.

use std::array;
use std::cell::RefCell;
use std::hint::black_box;
use std::time::Duration;

use sheet_tests::ffi::{house_plan, plan_make};
use sheet_tests::given::{Given, HOUSE};
use sheet_tests::make::{H_3X3, V_3X3};
use sheet_tests::yardstick::{one_row_plan_make, plain_plan_make};

use crate::subject::SIZES;
use crate::timing::{in_turns, median};

pub type Maker = fn(&Given, &mut [u8]) -> u64;

/// The call that makes a plan.
pub const PLAN_MAKE: Maker = |given, plan| plan_make(given, plan, false);

/// A plan of powers from its two polynomials. One row: plain Rust that tests the pairs with the first
/// window and the first strip only, which decide for such tables.
pub fn making() {
    println!("Making a plan; medians in microseconds. One row: of pairs, in place of all");
    println!(
        "     size   burst   library  plain Rust  one row in Rust  library/plain  library/one row"
    );
    for (n1, n2) in SIZES {
        let given = Given::new([n1 as u32, n2 as u32, 3, 3], V_3X3, H_3X3);
        let [library, plain, one_row] =
            makers(&given, 0, [PLAN_MAKE, plain_plan_make, one_row_plan_make]).map(median);
        println!(
            "{n1:4} x {n2:<4} 3 x 3 {library:10.1} {plain:11.1} {one_row:16.1} {:14.2} {:16.2}",
            library / plain,
            library / one_row,
        );
    }
    println!();
}

/// The house plan by its own call, and from the house numbers: by the call that makes any plan, and
/// in Rust as above.
pub fn house() {
    println!("The house plan; medians in microseconds. Maker: sheet_plan_make with its numbers");
    println!(
        "   library     maker  plain Rust  one row  library/maker  library/plain  library/one row"
    );
    let house: Maker = |_, plan| house_plan(plan, false);
    let [library, maker, plain, one_row] =
        makers(&HOUSE, 0, [house, PLAN_MAKE, plain_plan_make, one_row_plan_make]).map(median);
    println!(
        "{library:10.1} {maker:9.1} {plain:11.1} {one_row:8.1} {:14.2} {:14.2} {:16.2}",
        library / maker,
        library / plain,
        library / one_row,
    );
    println!();
}

/// The times of each of these makers, which must give this number and leave the same plan.
pub fn makers<const N: usize>(
    given: &Given,
    number: u64,
    makers: [Maker; N],
) -> [Vec<Duration>; N] {
    let (times, plans) = timed(given, number, makers);
    assert!(plans.iter().all(|plan| *plan == plans[0]), "the plans differ");
    times
}

/// The times of each of these makers, which must give this number, and the buffers as they are left.
pub fn timed<const N: usize>(
    given: &Given,
    number: u64,
    makers: [Maker; N],
) -> ([Vec<Duration>; N], [Vec<u8>; N]) {
    let plans = makers.map(|_| RefCell::new(vec![0; given.plan_len()]));
    let make = |at: usize| {
        assert_eq!(makers[at](black_box(given), &mut plans[at].borrow_mut()) & 31, number);
    };
    let calls: [_; N] = array::from_fn(|at| move || make(at));
    let times = in_turns(calls.each_ref().map(|call| call as &dyn Fn()));
    (times, plans.map(RefCell::into_inner))
}

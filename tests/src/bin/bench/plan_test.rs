//! Testing plans.

use std::hint::black_box;

use sheet_tests::ffi::SHEET;
use sheet_tests::rng::Rng;
use sheet_tests::yardstick::{best_plan_test, plain_plan_test};

use crate::subject::{subjects, SUBJECT};
use crate::timing::{in_turns, median};

pub fn plan_test() {
    println!("Test of an accepted plan; medians in microseconds");
    println!("{SUBJECT}   library  plain Rust  best Rust  library/plain  library/best");
    for subject in subjects(&mut Rng::new(1)) {
        let bytes = subject.plan.encode();
        let contenders: [&dyn Fn(); 3] = [
            &|| assert_eq!(SHEET.plan_test(black_box(&bytes)), 0),
            &|| assert_eq!(plain_plan_test(black_box(&bytes)), 0),
            &|| assert_eq!(best_plan_test(black_box(&bytes)), 0),
        ];
        let [library, plain, best] = in_turns(contenders).map(median);
        subject.print();
        println!(
            "{library:10.0} {plain:11.0} {best:10.0} {:14.2} {:13.2}",
            library / plain,
            library / best,
        );
    }
}

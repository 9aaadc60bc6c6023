//! The library beside that of an earlier commit. The plans that it takes may have an older form: each
//! archive is handed those of its own form, and they hold the same.

use sheet_tests::ffi::{before, BEFORE, SHEET};
use sheet_tests::given::Given;
use sheet_tests::make::{H_3X3, H_4X4, V_3X3, WIDE};
use sheet_tests::plan::Plan;
use sheet_tests::rng::Rng;

use crate::making::{timed, Maker, PLAN_MAKE};
use crate::sheets::Job;
use crate::subject::{sheets, SIZES, SUBJECT};
use crate::timing::{in_turns, least};

/// A plan of the older form is shorter: the rest of the buffer is left.
const PLAN_MAKE_BEFORE: Maker =
    |given, plan| before::plan_make(given, &mut plan[..before::plan_len(given)]);

/// Making plans: some that are made, and one that check 8 turns back.
fn making() {
    let of_3x3 = |(n1, n2)| (Given::new([n1 as u32, n2 as u32, 3, 3], V_3X3, H_3X3), 0);
    let turned_back = (Given::new([512, 698, 4, 4], WIDE, H_4X4), 8);
    for (given, number) in SIZES.map(of_3x3).into_iter().chain([turned_back]) {
        let both = [PLAN_MAKE_BEFORE, PLAN_MAKE];
        let (times, [earlier, plan]) = timed(&given, number, both);
        if number == 0 {
            let plan = Plan::parse(&plan).expect("a made plan is of the right form");
            assert!(earlier.starts_with(&before::plan_bytes(&plan)), "the plans differ");
        }
        let [before, now] = times.map(least);
        let Given { n1, n2, b1, b2, .. } = given;
        print!("{n1:4} x {n2:<4} {b1} x {b2}  powers");
        print_ratio(if number == 0 { "make" } else { "make: 8" }, before, now);
    }
}

fn print_ratio(call: &str, before: f64, now: f64) {
    println!("{call:>11} {before:9.1} {now:9.1} {:15.2}", now / before);
}

/// Whole calls, of the archive of an earlier commit and of this one, in turns.
pub fn beside() {
    println!();
    println!("Beside the archive of the earlier commit; least times in microseconds");
    println!("{SUBJECT}       call    before   library  library/before");
    making();
    let mut rng = Rng::new(3);
    for subject in sheets(&mut rng) {
        let job = Job::new(&subject, &mut rng);
        let earlier = job.with_plan(before::plan_bytes(&subject.plan));
        let contenders: [&dyn Fn(); 6] = [
            &|| earlier.test(BEFORE),
            &|| job.test(SHEET),
            &|| earlier.write(BEFORE),
            &|| job.write(SHEET),
            &|| earlier.read(BEFORE),
            &|| job.read(SHEET),
        ];
        let [test, test_now, write, write_now, read, read_now] = in_turns(contenders).map(least);
        earlier.assert_done();
        job.assert_done();
        for (call, before, now) in
            [("plan test", test, test_now), ("write", write, write_now), ("read", read, read_now)]
        {
            job.subject.print();
            print_ratio(call, before, now);
        }
    }
}

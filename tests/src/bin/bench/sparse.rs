//! Plans for bursts of at most one cell or two, of 4 x 4 cells on full-size sheets.

use std::hint::black_box;

use sheet_tests::answer::Answer;
use sheet_tests::ffi::SHEET;
use sheet_tests::given::Given;
use sheet_tests::make::CellOrder;
use sheet_tests::plan::Plan;
use sheet_tests::rng::Rng;
use sheet_tests::sparse::{
    far_refusals, few_of_4x4, late_refusals, polynomials_4x4, reversed_4x4, wide_4x4,
};
use sheet_tests::yardstick::{one_row_plan_make, sparse_plan_test};

use crate::making::{makers, PLAN_MAKE};
use crate::sheets::{least_times, Job};
use crate::subject::{Subject, SUBJECT};
use crate::timing::{in_turns, median};

const FULL: [usize; 2] = [512, 698];

/// Plans of powers and others, for each t.
fn accepted(rng: &mut Rng) -> Vec<Subject> {
    let mut subjects = Vec::new();
    for t in [1, 2] {
        let order = CellOrder::Scattered;
        subjects.push(Subject { plan: few_of_4x4(FULL, t, order, rng), tables: "powers" });
        subjects.push(Subject { plan: reversed_4x4(FULL, t, order, rng), tables: "others" });
    }
    subjects
}

/// What is turned back as late as can be: of tables of powers the first row of pairs, of others all of
/// them. Those have the widest entries, since narrower ones fail sooner once an entry is altered.
fn refused(rng: &mut Rng) -> Vec<(Subject, Answer)> {
    let subject = |tables| move |(plan, told): (Plan, Answer)| (Subject { plan, tables }, told);
    let of_powers = far_refusals().into_iter().map(subject("powers"));
    of_powers.chain(late_refusals(2, rng).into_iter().map(subject("wide"))).collect()
}

/// Wide: others, with entries of 32 digits. Plain Rust goes the same way: of each first window the sums of
/// its sets are held, and every later set is looked up once; a table of powers is known by its look, and
/// tested by one row of pairs.
pub fn plan_test() {
    println!();
    println!("Bursts of at most t cells: test of a plan, and making one; medians in microseconds");
    println!("{SUBJECT}  t           told   library  plain Rust  library/plain");
    let mut rng = Rng::new(13);
    let wide = Subject { plan: wide_4x4(2, CellOrder::Scattered, &mut rng), tables: "wide" };
    let taken = accepted(&mut rng).into_iter().chain([wide]);
    let taken = taken.map(|subject| (subject, Answer::default()));
    for (subject, told) in taken.chain(refused(&mut rng)) {
        let bytes = subject.plan.encode();
        let contenders: [&dyn Fn(); 2] =
            [&|| assert_eq!(SHEET.plan_test(black_box(&bytes)), told.pack()), &|| {
                assert_eq!(sparse_plan_test(black_box(&bytes)), told.pack())
            }];
        let [library, plain] = in_turns(contenders).map(median);
        let Answer { number, p, q, .. } = told;
        let what = if number == 0 { "accepted".into() } else { format!("{number} at {p}, {q}") };
        print_row(&subject, &what, library, plain);
    }
    for t in [1, 2] {
        let [v, h] = polynomials_4x4(t);
        let given = Given { t: t as u32, ..Given::new([512, 698, 4, 4], v, h) };
        let [library, plain] = makers(&given, 0, [PLAN_MAKE, one_row_plan_make]).map(median);
        print_row(&Subject { plan: given.sizes(), tables: "powers" }, "made", library, plain);
    }
}

fn print_row(subject: &Subject, what: &str, library: f64, plain: f64) {
    subject.print();
    let t = subject.plan.t;
    println!("{t:3} {what:>14} {library:9.0} {plain:11.0} {:14.2}", library / plain);
}

/// Writing, and reading a scan with as many cells turned over as a burst may have, in the last corner.
pub fn write_and_read() {
    println!();
    println!("Bursts of at most t cells: write and read beyond the plan test; least times in microseconds");
    println!("{SUBJECT}  t           call   library  plain Rust  library/plain");
    let mut rng = Rng::new(14);
    for subject in accepted(&mut rng) {
        let job = Job::new(&subject, &mut rng);
        let [test, write, read, plain_write, plain_read] = least_times(&job);
        for (call, library, plain) in
            [("write", write - test, plain_write), ("read", read - test, plain_read)]
        {
            print_row(&subject, call, library, plain);
        }
    }
}

//! Sums of runs of rows.

use std::array;
use std::hint::black_box;
use std::ops::Range;

use sheet_tests::ffi::sums;
use sheet_tests::make::{powers_1x1, powers_3x3, CellOrder};
use sheet_tests::rng::Rng;
use sheet_tests::scans::random_sheet;
use sheet_tests::yardstick::{plain_sums, sum_accepted};

use crate::subject::{Subject, SUBJECT};
use crate::timing::{in_turns, least};

/// Sums of runs of a random sheet of full size: whole calls, and what a row costs beyond the empty run,
/// which makes the checks alone. In Rust a row's cost is taken without the plan test, in whose spread it
/// would drown.
pub fn runs() {
    println!();
    println!("Sums of a run in the middle of a random sheet; least times of whole calls in microseconds.");
    println!(
        "A row: what each costs beyond the empty run, which makes the checks alone, in nanoseconds"
    );
    println!(
        "{SUBJECT}  rows   library  plain Rust  library/plain  a row  in plain Rust  library/plain"
    );
    let mut rng = Rng::new(4);
    for plan in [
        powers_3x3(512, 698, CellOrder::Scattered, &mut rng),
        powers_1x1(CellOrder::Scattered, &mut rng),
    ] {
        time_runs(&Summed::new(Subject { plan, tables: "powers" }, &mut rng));
    }
}

/// What is summed: a plan and a random sheet.
struct Summed {
    subject: Subject,
    bytes: Vec<u8>,
    sheet: Vec<u8>,
}

/// Each leaves the sums of a run.
type Summer = fn(&Summed, Range<u32>) -> [u8; 8];

impl Summed {
    fn new(subject: Subject, rng: &mut Rng) -> Summed {
        let (bytes, sheet) = (subject.plan.encode(), random_sheet(&subject.plan, rng));
        Summed { subject, bytes, sheet }
    }

    fn sums(&self, run: Range<u32>) -> [u8; 8] {
        let mut into = [0; 8];
        assert_eq!(sums(black_box(&self.bytes), &self.sheet, run, &mut into, false), 0);
        into
    }

    fn plain_sums(&self, run: Range<u32>) -> [u8; 8] {
        let mut into = [0; 8];
        assert_eq!(plain_sums(black_box(&self.bytes), &self.sheet, run, &mut into), 0);
        into
    }

    fn plain_rows(&self, run: Range<u32>) -> [u8; 8] {
        let mut into = [0; 8];
        let plan = black_box(&self.subject.plan);
        assert_eq!(sum_accepted(plan, &self.sheet, run, &mut into), Ok(()));
        into
    }

    /// So many rows in the middle of the sheet.
    fn middle(&self, rows: u32) -> Range<u32> {
        let first = (self.subject.plan.n1 as u32 - rows) / 2;
        first..first + rows
    }
}

/// The calls with the plain plan test take turns by themselves: they are so long that what is timed after
/// one finds a cold memory.
fn time_runs(summed: &Summed) {
    const ROWS: [u32; 4] = [0, 1, 64, 512];
    const SUMMERS: [Summer; 3] = [Summed::sums, Summed::plain_rows, Summed::plain_sums];
    for rows in ROWS {
        let all = SUMMERS.map(|sums| sums(summed, summed.middle(rows)));
        assert!(all.iter().all(|sums| *sums == all[0]), "the sums differ");
    }
    let calls: [_; 12] = array::from_fn(|at| {
        let (sums, run) = (SUMMERS[at / 4], summed.middle(ROWS[at % 4]));
        move || {
            black_box(sums(summed, run.clone()));
        }
    });
    let call = |at: usize| &calls[at] as &dyn Fn();
    let short: [f64; 8] = in_turns(array::from_fn(call)).map(least);
    let long: [f64; 4] = in_turns(array::from_fn(|at| call(8 + at))).map(least);
    let (library, plain_rows) = short.split_at(4);
    for (at, rows) in ROWS.into_iter().enumerate() {
        let (whole, plain) = (library[at], long[at]);
        summed.subject.print();
        print!("{rows:6} {whole:9.1} {plain:11.1} {:14.2}", whole / plain);
        // Of one row the difference is not told: it is about as much as the times spread.
        if rows > 1 {
            let a_row = |times: &[f64]| (times[at] - times[0]) * 1e3 / f64::from(rows);
            let (library, plain) = (a_row(library), a_row(plain_rows));
            print!("{library:7.0} {plain:14.0} {:14.2}", library / plain);
        }
        println!();
    }
}

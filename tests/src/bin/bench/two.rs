//! Two scans of one film.

use std::cell::RefCell;
use std::hint::black_box;

use sheet_tests::ffi::{first_difference, read_two, SHEET};
use sheet_tests::make::{powers_1x1, powers_3x3, CellOrder};
use sheet_tests::model::write_sheet;
use sheet_tests::pairs::{difference_of, edge_bursts, row_places};
use sheet_tests::rng::Rng;
use sheet_tests::scans::{random_data, turned};
use sheet_tests::yardstick::{
    first_difference_accepted, plain_first_difference, plain_read_two, read_two_accepted,
};

use crate::subject::{Subject, SUBJECT};
use crate::timing::{in_turns, least};

/// Plans of full size: the house plan, and one with bursts of one cell, where the plan test is short.
fn subjects(rng: &mut Rng) -> [Subject; 2] {
    [powers_3x3(512, 698, CellOrder::Sheet, rng), powers_1x1(CellOrder::Scattered, rng)]
        .map(|plan| Subject { plan, tables: "powers" })
}

/// Two scans read, as they were written, and each with a full burst: in the middle of the sheet, and in the
/// last corner, where a search in sheet order comes last. Two reads: what two calls of sheet_read take, each
/// of which tests the plan. Beyond: what a call costs beyond the plan test; in plain Rust it is taken without
/// one, in whose spread it would drown.
pub fn two_scans() {
    println!();
    println!(
        "Two scans read; least times of whole calls in microseconds. Two reads: by sheet_read."
    );
    println!("Beyond: without the plan test");
    println!(
        "{SUBJECT}       scans   library  two reads  library/two  plain Rust  library/plain  \
         beyond  in plain Rust  library/plain"
    );
    let mut rng = Rng::new(6);
    for subject in subjects(&mut rng) {
        let plan = &subject.plan;
        let data = random_data(plan, &mut rng);
        let sheet = write_sheet(plan, &data);
        let bursts = edge_bursts(plan);
        let with_burst = |at: usize| turned(plan, &sheet, &bursts[at]);
        time_reading(&Scans::new(&subject, [sheet.clone(), sheet.clone()], &data), "as written");
        time_reading(&Scans::new(&subject, [with_burst(4), with_burst(8)], &data), "with bursts");
    }
}

/// Two scans that differ in the last row alone, which a search from the first finds last.
pub fn differences() {
    println!();
    println!("The last row is the first that differs; least times of whole calls in microseconds.");
    println!("Beyond: without the plan test");
    println!(
        "{SUBJECT}   library  plain Rust  library/plain  beyond  in plain Rust  library/plain"
    );
    let mut rng = Rng::new(7);
    for subject in subjects(&mut rng) {
        let plan = &subject.plan;
        let data = random_data(plan, &mut rng);
        let first = write_sheet(plan, &data);
        let second = turned(plan, &first, &[(plan.n1 - 1, plan.n2 - 1)]);
        time_difference(&Scans::new(&subject, [first, second], &data));
    }
}

/// What is read: two scans, the data that they give, and a buffer for it.
struct Scans<'a> {
    subject: &'a Subject,
    bytes: Vec<u8>,
    scans: [Vec<u8>; 2],
    data: &'a [u8],
    into: RefCell<Vec<u8>>,
    sheet: RefCell<Vec<u8>>,
}

impl Scans<'_> {
    fn new<'a>(subject: &'a Subject, scans: [Vec<u8>; 2], data: &'a [u8]) -> Scans<'a> {
        let (into, sheet) = (RefCell::new(vec![0; data.len()]), RefCell::new(scans[0].clone()));
        Scans { subject, bytes: subject.plan.encode(), scans, data, into, sheet }
    }

    fn test(&self) {
        assert_eq!(SHEET.plan_test(black_box(&self.bytes)), 0);
    }

    fn read_two(&self) {
        let [first, second] = &self.scans;
        let mut into = self.into.borrow_mut();
        assert_eq!(read_two(black_box(&self.bytes), first, second, &mut into, false), 0);
    }

    fn two_reads(&self) {
        let (mut sheet, mut into) = (self.sheet.borrow_mut(), self.into.borrow_mut());
        for scan in &self.scans {
            sheet.copy_from_slice(scan);
            assert_eq!(SHEET.read(black_box(&self.bytes), &mut sheet, &mut into) & 31, 0);
        }
    }

    fn plain_beyond(&self) {
        let ([first, second], plan) = (&self.scans, black_box(&self.subject.plan));
        assert_eq!(read_two_accepted(plan, first, second, &mut self.into.borrow_mut()), Ok(()));
    }

    fn plain_read_two(&self) {
        let [first, second] = &self.scans;
        let mut into = self.into.borrow_mut();
        assert_eq!(plain_read_two(black_box(&self.bytes), first, second, &mut into), 0);
    }

    /// The contender leaves the data, whatever the buffer held.
    fn assert_done(&self, contender: impl Fn(&Self)) {
        self.into.borrow_mut().fill(0xff);
        contender(self);
        assert!(*self.into.borrow() == self.data, "the data differ");
    }

    fn difference(&self) {
        let [first, second] = &self.scans;
        let told = difference_of(&row_places(&self.subject.plan, self.subject.plan.n1 - 1));
        assert_eq!(first_difference(black_box(&self.bytes), first, second, false), told);
    }

    fn plain_difference_beyond(&self) {
        let ([first, second], plan) = (&self.scans, black_box(&self.subject.plan));
        let row = first_difference_accepted(plan, first, second);
        assert_eq!(row, row_places(plan, plan.n1 - 1));
    }

    fn plain_difference(&self) {
        let ([first, second], plan) = (&self.scans, &self.subject.plan);
        let row = plain_first_difference(black_box(&self.bytes), first, second);
        assert_eq!(row, row_places(plan, plan.n1 - 1));
    }
}

/// The calls with the plain plan test take turns by themselves: they are so long that what is timed after
/// one finds a cold memory.
fn time_reading(scans: &Scans, what: &str) {
    for contender in [Scans::read_two, Scans::two_reads, Scans::plain_beyond, Scans::plain_read_two]
    {
        scans.assert_done(contender);
    }
    let contenders: [&dyn Fn(); 4] =
        [&|| scans.test(), &|| scans.read_two(), &|| scans.two_reads(), &|| scans.plain_beyond()];
    let [test, library, two, plain_beyond] = in_turns(contenders).map(least);
    let [plain] = in_turns([&|| scans.plain_read_two()]).map(least);
    let beyond = library - test;
    scans.subject.print();
    println!(
        "{what:>12} {library:9.1} {two:10.1} {:12.2} {plain:11.1} {:14.2} {beyond:7.1} {plain_beyond:14.1} {:14.2}",
        library / two,
        library / plain,
        beyond / plain_beyond,
    );
}

fn time_difference(scans: &Scans) {
    let contenders: [&dyn Fn(); 3] =
        [&|| scans.test(), &|| scans.difference(), &|| scans.plain_difference_beyond()];
    let [test, library, plain_beyond] = in_turns(contenders).map(least);
    let [plain] = in_turns([&|| scans.plain_difference()]).map(least);
    let beyond = library - test;
    scans.subject.print();
    println!(
        "{library:10.1} {plain:11.1} {:14.2} {beyond:7.1} {plain_beyond:14.1} {:14.2}",
        library / plain,
        beyond / plain_beyond,
    );
}

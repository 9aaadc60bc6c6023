//! Sheets by columns, and sheets turned.

use std::cell::RefCell;
use std::hint::black_box;

use sheet_tests::ffi::{turn, BY_COLUMN, SHEET};
use sheet_tests::make::{powers_1x1, powers_3x3, CellOrder};
use sheet_tests::model::{by_columns, Layout};
use sheet_tests::rng::Rng;
use sheet_tests::scans::{random_data, random_sheet};
use sheet_tests::yardstick::{
    plain_read_by_column, plain_turn, plain_write_by_column, read_by_column_accepted,
    turn_accepted, write_by_column_accepted,
};

use crate::sheets::{last_corner, Job};
use crate::subject::{Subject, SUBJECT};
use crate::timing::{in_turns, least};

/// Plans of full size: the house plan; one with bursts of one cell, where the plan test is short; and one whose columns
/// end within a byte.
fn subjects(rng: &mut Rng) -> [Subject; 3] {
    [
        powers_3x3(512, 698, CellOrder::Sheet, rng),
        powers_1x1(CellOrder::Scattered, rng),
        powers_3x3(509, 698, CellOrder::Scattered, rng),
    ]
    .map(|plan| Subject { plan, tables: "powers" })
}

/// Writing and reading by columns, as written and with a full burst in the last corner, beside the same call on the same
/// cells by rows. Beyond: what a call costs beyond the plan test; in plain Rust it is taken without one, in whose
/// spread it would drown.
pub fn columns() {
    println!();
    println!(
        "Sheets by columns; least times of whole calls in microseconds. Rows: the same call by rows."
    );
    println!("Beyond: without the plan test");
    println!(
        "{SUBJECT}              call   library      rows  library/rows  plain Rust  library/plain  \
         beyond  in plain Rust  library/plain"
    );
    let mut rng = Rng::new(9);
    for subject in subjects(&mut rng) {
        let data = random_data(&subject.plan, &mut rng);
        let jobs =
            |cells| Layout::BOTH.map(|layout| Job::of(&subject, layout, data.clone(), cells));
        let [clean, blotted] = [jobs(&[]), jobs(&last_corner(&subject.plan))];
        time(&clean, "write", &[write, plain_write, plain_write_whole], |rows| rows.write(SHEET));
        for (jobs, call) in [(clean, "read, as written"), (blotted, "read, a burst")] {
            time(&jobs, call, &[read, plain_read, plain_read_whole], |rows| rows.read(SHEET));
        }
    }
}

/// A contender of the calls by columns: the library, plain Rust without the plan test, and with it.
type Contender = fn(&Job);

fn write(job: &Job) {
    job.write(BY_COLUMN);
}

fn plain_write(job: &Job) {
    let (plan, mut sheet) = (black_box(&job.subject.plan), job.sheet.borrow_mut());
    assert_eq!(write_by_column_accepted(plan, &job.data, &mut sheet), Ok(()));
}

fn plain_write_whole(job: &Job) {
    let mut sheet = job.sheet.borrow_mut();
    assert_eq!(plain_write_by_column(black_box(&job.bytes), &job.data, &mut sheet), 0);
}

fn read(job: &Job) {
    job.read(BY_COLUMN);
}

fn plain_read(job: &Job) {
    job.restore();
    let (mut sheet, mut into) = (job.sheet.borrow_mut(), job.into.borrow_mut());
    let plan = black_box(&job.subject.plan);
    assert_eq!(read_by_column_accepted(plan, &mut sheet, &mut into).number, 0);
}

fn plain_read_whole(job: &Job) {
    job.restore();
    let (mut sheet, mut into) = (job.sheet.borrow_mut(), job.into.borrow_mut());
    assert_eq!(plain_read_by_column(black_box(&job.bytes), &mut sheet, &mut into) & 31, 0);
}

/// The contender leaves the written sheet and, if it reads, its data, whatever the buffers held.
fn assert_done(job: &Job, call: &str, contender: impl Fn(&Job)) {
    job.sheet.borrow_mut().fill(0xff);
    job.into.borrow_mut().fill(0xff);
    contender(job);
    assert!(*job.sheet.borrow() == job.written, "{call}: the sheets differ");
    assert!(call == "write" || *job.into.borrow() == job.data, "{call}: the data differ");
}

/// The calls with the plain plan test take turns by themselves: they are so long that what is timed after
/// one finds a cold memory.
fn time([rows, columns]: &[Job; 2], call: &str, by_column: &[Contender; 3], by_row: Contender) {
    let [library, plain_beyond, plain] = by_column;
    assert_done(rows, call, by_row);
    by_column.iter().for_each(|contender| assert_done(columns, call, contender));
    let contenders: [&dyn Fn(); 4] =
        [&|| columns.test(BY_COLUMN), &|| library(columns), &|| by_row(rows), &|| {
            plain_beyond(columns)
        }];
    let [test, library, rows, plain_beyond] = in_turns(contenders).map(least);
    let [plain] = in_turns([&|| plain(columns)]).map(least);
    columns.subject.print();
    print!("{call:>18} {library:9.1} {rows:9.1} {:13.2}", library / rows);
    print_plain([test, library, plain, plain_beyond]);
}

/// Whole calls, and what is beyond the plan test, beside plain Rust.
fn print_plain([test, library, plain, plain_beyond]: [f64; 4]) {
    let beyond = library - test;
    println!(
        " {plain:11.1} {:14.2} {beyond:7.1} {plain_beyond:14.1} {:14.2}",
        library / plain,
        beyond / plain_beyond,
    );
}

/// A random sheet turned either way.
pub fn turns() {
    println!();
    println!("A sheet turned into the other layout; least times of whole calls in microseconds.");
    println!("Beyond: without the plan test");
    println!(
        "{SUBJECT}        call   library  plain Rust  library/plain  beyond  in plain Rust  library/plain"
    );
    let mut rng = Rng::new(10);
    for subject in subjects(&mut rng) {
        let rows = random_sheet(&subject.plan, &mut rng);
        let columns = by_columns(&subject.plan, &rows);
        time_turning(&Turned::new(&subject, Layout::Rows, &rows, &columns), "to columns");
        time_turning(&Turned::new(&subject, Layout::Columns, &columns, &rows), "to rows");
    }
}

/// What is turned: a sheet from one layout, what it comes to in the other, and a buffer for that.
struct Turned<'a> {
    subject: &'a Subject,
    bytes: Vec<u8>,
    from: Layout,
    source: &'a [u8],
    turned: &'a [u8],
    target: RefCell<Vec<u8>>,
}

impl Turned<'_> {
    fn new<'a>(
        subject: &'a Subject,
        from: Layout,
        source: &'a [u8],
        turned: &'a [u8],
    ) -> Turned<'a> {
        let target = RefCell::new(vec![0; turned.len()]);
        Turned { subject, bytes: subject.plan.encode(), from, source, turned, target }
    }

    fn test(&self) {
        assert_eq!(SHEET.plan_test(black_box(&self.bytes)), 0);
    }

    fn turn(&self) {
        let mut target = self.target.borrow_mut();
        assert_eq!(turn(self.from, black_box(&self.bytes), self.source, &mut target, false), 0);
    }

    fn plain_beyond(&self) {
        let (plan, mut target) = (black_box(&self.subject.plan), self.target.borrow_mut());
        assert_eq!(turn_accepted(self.from, plan, self.source, &mut target), Ok(()));
    }

    fn plain(&self) {
        let mut target = self.target.borrow_mut();
        assert_eq!(plain_turn(self.from, black_box(&self.bytes), self.source, &mut target), 0);
    }

    /// The contender leaves the sheet in the other layout, whatever the buffer held.
    fn assert_done(&self, contender: impl Fn(&Self)) {
        self.target.borrow_mut().fill(0xff);
        contender(self);
        assert!(*self.target.borrow() == self.turned, "the sheets differ");
    }
}

fn time_turning(turned: &Turned, call: &str) {
    for contender in [Turned::turn, Turned::plain_beyond, Turned::plain] {
        turned.assert_done(contender);
    }
    let contenders: [&dyn Fn(); 3] =
        [&|| turned.test(), &|| turned.turn(), &|| turned.plain_beyond()];
    let [test, library, plain_beyond] = in_turns(contenders).map(least);
    let [plain] = in_turns([&|| turned.plain()]).map(least);
    turned.subject.print();
    print!("{call:>12} {library:9.1}");
    print_plain([test, library, plain, plain_beyond]);
}

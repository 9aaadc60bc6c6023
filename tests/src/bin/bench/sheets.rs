//! Writing and reading sheets.

use std::cell::RefCell;
use std::hint::black_box;

use sheet_tests::ffi::{Archive, SHEET};
use sheet_tests::model::{write_sheet, Cell, Layout};
use sheet_tests::plan::Plan;
use sheet_tests::rng::Rng;
use sheet_tests::scans::{full_burst, random_data, turned};
use sheet_tests::yardstick::{read_accepted, write_accepted};

use crate::subject::{sheets, Subject, SUBJECT};
use crate::timing::{in_turns, least};

/// Both calls test the plan first. What they cost beyond it is the least time of the call less the
/// least time of the plan test. The difference can drown in the spread of a long plan test on a busy
/// machine; with bursts of one cell the plan test is short.
pub fn write_and_read() {
    println!();
    println!("Write and read beyond the plan test; least times in microseconds");
    println!("{SUBJECT}  plan test   call   library  plain Rust  library/plain");
    let mut rng = Rng::new(2);
    for subject in sheets(&mut rng) {
        compare(&Job::new(&subject, &mut rng));
    }
}

/// What is timed: a plan, data, the sheet written from them in one of the layouts, and a scan of it.
pub struct Job<'a> {
    pub subject: &'a Subject,
    pub bytes: Vec<u8>,
    pub data: Vec<u8>,
    pub written: Vec<u8>,
    scan: Vec<u8>,
    pub sheet: RefCell<Vec<u8>>,
    pub into: RefCell<Vec<u8>>,
}

/// A full burst in the last corner, where a search in sheet order comes last.
pub fn last_corner(plan: &Plan) -> Vec<Cell> {
    full_burst(plan, plan.n1 - plan.b1, plan.n2 - plan.b2)
}

impl Job<'_> {
    /// Random data, and a scan by rows with a full burst in the last corner.
    pub fn new<'a>(subject: &'a Subject, rng: &mut Rng) -> Job<'a> {
        let data = random_data(&subject.plan, rng);
        Job::of(subject, Layout::Rows, data, &last_corner(&subject.plan))
    }

    /// This data, and a scan in this layout with these cells turned over.
    pub fn of<'a>(subject: &'a Subject, layout: Layout, data: Vec<u8>, cells: &[Cell]) -> Job<'a> {
        let plan = &subject.plan;
        let sheet = write_sheet(plan, &data);
        let scan = layout.of_rows(plan, turned(plan, &sheet, cells));
        let written = layout.of_rows(plan, sheet);
        let sheet = RefCell::new(scan.clone());
        let into = RefCell::new(vec![0; data.len()]);
        Job { subject, bytes: plan.encode(), data, written, scan, sheet, into }
    }

    /// The same with other bytes of the plan, which hold the same plan, and with buffers of its own.
    #[cfg(feature = "before")]
    pub fn with_plan(&self, bytes: Vec<u8>) -> Job<'_> {
        let Job { subject, ref data, ref written, ref scan, ref sheet, ref into, .. } = *self;
        let (data, written, scan) = (data.clone(), written.clone(), scan.clone());
        Job { subject, bytes, data, written, scan, sheet: sheet.clone(), into: into.clone() }
    }

    pub fn restore(&self) {
        self.sheet.borrow_mut().copy_from_slice(&self.scan);
    }

    /// The last contender has left the written sheet and its data.
    pub fn assert_done(&self) {
        assert_eq!((&*self.sheet.borrow(), &*self.into.borrow()), (&self.written, &self.data));
    }

    pub fn test(&self, archive: Archive) {
        assert_eq!(archive.plan_test(black_box(&self.bytes)), 0);
    }

    pub fn write(&self, archive: Archive) {
        let mut sheet = self.sheet.borrow_mut();
        assert_eq!(archive.write(black_box(&self.bytes), &self.data, &mut sheet), 0);
    }

    pub fn read(&self, archive: Archive) {
        self.restore();
        let (mut sheet, mut into) = (self.sheet.borrow_mut(), self.into.borrow_mut());
        assert_eq!(archive.read(black_box(&self.bytes), &mut sheet, &mut into) & 31, 0);
    }

    fn plain_write(&self) {
        write_accepted(black_box(&self.subject.plan), &self.data, &mut self.sheet.borrow_mut());
    }

    fn plain_read(&self) {
        self.restore();
        let (mut sheet, mut into) = (self.sheet.borrow_mut(), self.into.borrow_mut());
        assert_eq!(read_accepted(black_box(&self.subject.plan), &mut sheet, &mut into).number, 0);
    }
}

/// The least times of the plan test, of writing and of reading by the library, and of the two in plain Rust
/// without a plan test.
pub fn least_times(job: &Job) -> [f64; 5] {
    let contenders: [&dyn Fn(); 5] = [
        &|| job.test(SHEET),
        &|| job.write(SHEET),
        &|| job.read(SHEET),
        &|| job.plain_write(),
        &|| job.plain_read(),
    ];
    let times = in_turns(contenders).map(least);
    job.assert_done();
    times
}

fn compare(job: &Job) {
    let [test, write, read, plain_write, plain_read] = least_times(job);
    for (call, library, plain) in
        [("write", write - test, plain_write), ("read", read - test, plain_read)]
    {
        job.subject.print();
        println!("{test:11.0} {call:>6} {library:9.0} {plain:11.0} {:14.2}", library / plain);
    }
}

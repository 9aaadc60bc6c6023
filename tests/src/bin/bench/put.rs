//! Putting a burst back.

use std::array;
use std::cell::RefCell;
use std::hint::black_box;

use sheet_tests::ffi::{put_back, SHEET};
use sheet_tests::make::{powers_1x1, powers_3x3, CellOrder};
use sheet_tests::model::smallest_rectangle;
use sheet_tests::rng::Rng;
use sheet_tests::scans::{random_sheet, turned};
use sheet_tests::yardstick::{plain_put_back, put_back_accepted};

use crate::sheets::last_corner;
use crate::subject::{Subject, SUBJECT};
use crate::timing::{in_turns, least};

/// A full burst in the last corner. Beyond: what a call costs beyond the plan test, which is the unused bits of each
/// row, the answer, and its cells; in plain Rust it is taken without one.
pub fn putting_back() {
    println!();
    println!("A full burst put back; least times of whole calls in microseconds. Beyond: without the plan test");
    println!("{SUBJECT}   library  plain Rust  library/plain  beyond  in plain Rust");
    let mut rng = Rng::new(12);
    for plan in [
        powers_3x3(64, 64, CellOrder::Scattered, &mut rng),
        // The house plan.
        powers_3x3(512, 698, CellOrder::Sheet, &mut rng),
        powers_1x1(CellOrder::Scattered, &mut rng),
    ] {
        time(&Put::new(&Subject { plan, tables: "powers" }, &mut rng));
    }
}

/// What is put back: an answer, on a sheet for each contender, and what is left after an odd number of times.
struct Put<'a> {
    subject: &'a Subject,
    bytes: Vec<u8>,
    answer: u64,
    sheets: [RefCell<Vec<u8>>; 3],
    left: Vec<u8>,
}

impl Put<'_> {
    fn new<'a>(subject: &'a Subject, rng: &mut Rng) -> Put<'a> {
        let cells = last_corner(&subject.plan);
        let sheet = random_sheet(&subject.plan, rng);
        let left = turned(&subject.plan, &sheet, &cells);
        let sheets = array::from_fn(|_| RefCell::new(sheet.clone()));
        let answer = smallest_rectangle(&cells).pack();
        Put { subject, bytes: subject.plan.encode(), answer, sheets, left }
    }

    fn test(&self) {
        assert_eq!(SHEET.plan_test(black_box(&self.bytes)), 0);
    }

    fn library(&self) {
        let mut sheet = self.sheets[0].borrow_mut();
        assert_eq!(put_back(black_box(&self.bytes), &mut sheet, self.answer, false), 0);
    }

    fn plain_beyond(&self) {
        let (plan, mut sheet) = (black_box(&self.subject.plan), self.sheets[1].borrow_mut());
        assert_eq!(put_back_accepted(plan, &mut sheet, self.answer), Ok(()));
    }

    fn plain(&self) {
        let mut sheet = self.sheets[2].borrow_mut();
        assert_eq!(plain_put_back(black_box(&self.bytes), &mut sheet, self.answer), 0);
    }

    /// Each contender has put back an odd number of times.
    fn assert_done(&self) {
        assert!(self.sheets.iter().all(|sheet| *sheet.borrow() == self.left), "the sheets differ");
    }
}

/// The calls with the plain plan test take turns by themselves: they are so long that what is timed after
/// one finds a cold memory.
fn time(put: &Put) {
    let contenders: [&dyn Fn(); 3] = [&|| put.test(), &|| put.library(), &|| put.plain_beyond()];
    let [test, library, plain_beyond] = in_turns(contenders).map(least);
    let [plain] = in_turns([&|| put.plain()]).map(least);
    put.assert_done();
    let beyond = library - test;
    put.subject.print();
    println!(
        "{library:10.1} {plain:11.1} {:14.2} {beyond:7.1} {plain_beyond:14.1}",
        library / plain
    );
}

//! Altering one data bit.

use std::array;
use std::cell::RefCell;
use std::hint::black_box;

use sheet_tests::ffi::{alter, SHEET};
use sheet_tests::make::{powers_1x1, powers_3x3, CellOrder};
use sheet_tests::model::{altered_data, write_sheet};
use sheet_tests::rng::Rng;
use sheet_tests::scans::random_data;
use sheet_tests::yardstick::{alter_accepted, plain_alter};

use crate::subject::{Subject, SUBJECT};
use crate::timing::{in_turns, least};

/// One alteration beside the whole sheet written afresh, of the first data bit and of the last, whose cell
/// a search in the order of the data finds last. Beyond: what a call costs beyond the plan test; in plain
/// Rust it is taken without one, in whose spread it would drown.
pub fn alterations() {
    println!();
    println!(
        "One data bit altered, beside a fresh write; least times of whole calls in microseconds."
    );
    println!("Beyond: without the plan test");
    println!(
        "{SUBJECT}  position     alter     write  alter/write  plain Rust  alter/plain  \
         beyond  in plain Rust  alter/plain"
    );
    let mut rng = Rng::new(5);
    for plan in [
        powers_3x3(64, 64, CellOrder::Scattered, &mut rng),
        // The house plan.
        powers_3x3(512, 698, CellOrder::Sheet, &mut rng),
        powers_1x1(CellOrder::Scattered, &mut rng),
    ] {
        let last = plan.data_bits() as u32 - 1;
        let subject = Subject { plan, tables: "powers" };
        for position in [0, last] {
            time_alteration(&Altered::new(&subject, position, &mut rng));
        }
    }
}

/// What is altered: a written sheet, at a position; and a sheet for each contender.
struct Altered<'a> {
    subject: &'a Subject,
    bytes: Vec<u8>,
    position: u32,
    fresh_data: Vec<u8>,
    fresh: Vec<u8>,
    sheets: [RefCell<Vec<u8>>; 4],
}

impl Altered<'_> {
    fn new<'a>(subject: &'a Subject, position: u32, rng: &mut Rng) -> Altered<'a> {
        let data = random_data(&subject.plan, rng);
        let fresh_data = altered_data(&data, position);
        let fresh = write_sheet(&subject.plan, &fresh_data);
        let written = write_sheet(&subject.plan, &data);
        let sheets = array::from_fn(|_| RefCell::new(written.clone()));
        let bytes = subject.plan.encode();
        Altered { subject, bytes, position, fresh_data, fresh, sheets }
    }

    fn test(&self) {
        assert_eq!(SHEET.plan_test(black_box(&self.bytes)), 0);
    }

    fn write(&self) {
        let mut sheet = self.sheets[0].borrow_mut();
        assert_eq!(SHEET.write(black_box(&self.bytes), &self.fresh_data, &mut sheet), 0);
    }

    fn alter(&self) {
        let mut sheet = self.sheets[1].borrow_mut();
        assert_eq!(alter(black_box(&self.bytes), &mut sheet, self.position, false), 0);
    }

    fn plain_beyond(&self) {
        let (plan, mut sheet) = (black_box(&self.subject.plan), self.sheets[2].borrow_mut());
        assert_eq!(alter_accepted(plan, &mut sheet, self.position), Ok(()));
    }

    fn plain_alter(&self) {
        let mut sheet = self.sheets[3].borrow_mut();
        assert_eq!(plain_alter(black_box(&self.bytes), &mut sheet, self.position), 0);
    }

    /// Each contender has altered its sheet an odd number of times.
    fn assert_done(&self) {
        assert!(self.sheets.iter().all(|sheet| *sheet.borrow() == self.fresh), "the sheets differ");
    }
}

/// The calls with the plain plan test take turns by themselves: they are so long that what is timed after
/// one finds a cold memory.
fn time_alteration(altered: &Altered) {
    let contenders: [&dyn Fn(); 4] =
        [&|| altered.test(), &|| altered.write(), &|| altered.alter(), &|| altered.plain_beyond()];
    let [test, write, alter, plain_beyond] = in_turns(contenders).map(least);
    let [plain] = in_turns([&|| altered.plain_alter()]).map(least);
    altered.assert_done();
    let (position, beyond) = (altered.position, alter - test);
    altered.subject.print();
    println!(
        "{position:10} {alter:9.1} {write:9.1} {:12.2} {plain:11.1} {:12.2} {beyond:7.1} {plain_beyond:14.1} {:12.2}",
        alter / write,
        alter / plain,
        beyond / plain_beyond,
    );
}

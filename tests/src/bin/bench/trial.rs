//! Reading small sheets by trial.

use std::cell::RefCell;
use std::hint::black_box;

use sheet_tests::ffi::{Archive, BY_TRIAL, SHEET};
use sheet_tests::make::{accepted_of_with, powers_3x3, CellOrder};
use sheet_tests::model::write_sheet;
use sheet_tests::pairs::hopeless;
use sheet_tests::plan::Plan;
use sheet_tests::rng::Rng;
use sheet_tests::scans::{random_data, turned};
use sheet_tests::trials::patterns;
use sheet_tests::yardstick::{plain_read_by_trial, read_by_trial_accepted};

use crate::sheets::last_corner;
use crate::subject::{Subject, SUBJECT};
use crate::timing::{in_turns, least};

/// Plans of 64 cells, the most that the program `trialread` tries: with bursts of 3 x 3, and with the largest.
fn subjects(rng: &mut Rng) -> [Subject; 4] {
    let random = |plan| Subject { plan, tables: "random" };
    [
        Subject { plan: powers_3x3(8, 8, CellOrder::Sheet, rng), tables: "powers" },
        random(accepted_of_with(rng, [4, 16, 3, 3], 0)),
        random(accepted_of_with(rng, [8, 8, 4, 4], 0)),
        random(accepted_of_with(rng, [4, 16, 4, 4], 0)),
    ]
}

/// Small sheets by trial, beside the usual reader: as written, where the first pattern fits; with a full burst in the
/// last rectangle, whose last pattern that is; and such as no burst mends, where all are tried too. Beyond: what a call
/// costs beyond the plan test; in plain Rust it is taken without one.
pub fn trials() {
    println!();
    println!(
        "Small sheets read by trial; least times of whole calls in microseconds. Usual: by sheet_read."
    );
    println!("Random: tables drawn at random. Patterns: how many are tried. Beyond: without the plan test");
    println!(
        "{SUBJECT}       sheet  patterns   library     usual  plain Rust  library/plain    beyond  \
         in plain Rust  library/plain"
    );
    let mut rng = Rng::new(11);
    for subject in subjects(&mut rng) {
        let plan = &subject.plan;
        let written = write_sheet(plan, &random_data(plan, &mut rng));
        let blotted = turned(plan, &written, &last_corner(plan));
        let lost = hopeless(plan, &mut rng).expect("not every sheet can be mended");
        time(&Tried::new(&subject, written, 0), "as written", 1);
        time(&Tried::new(&subject, blotted, 0), "last burst", patterns(plan));
        time(&Tried::new(&subject, lost, 14), "no burst", patterns(plan));
    }
}

/// What is read: a scan, the number of its answer, and buffers for the sheet and its data.
struct Tried<'a> {
    subject: &'a Subject,
    bytes: Vec<u8>,
    scan: Vec<u8>,
    number: u64,
    sheet: RefCell<Vec<u8>>,
    into: RefCell<Vec<u8>>,
}

impl Tried<'_> {
    fn new(subject: &Subject, scan: Vec<u8>, number: u64) -> Tried<'_> {
        let sheet = RefCell::new(scan.clone());
        let into = RefCell::new(vec![0; subject.plan.data_len()]);
        Tried { subject, bytes: subject.plan.encode(), scan, number, sheet, into }
    }

    fn test(&self) {
        assert_eq!(SHEET.plan_test(black_box(&self.bytes)), 0);
    }

    /// The scan is read in this way, with its number. What is told is handed back.
    fn read(&self, by: impl Fn(&mut [u8], &mut [u8]) -> u64) -> u64 {
        let (mut sheet, mut into) = (self.sheet.borrow_mut(), self.into.borrow_mut());
        sheet.copy_from_slice(&self.scan);
        let answer = by(&mut sheet, &mut into);
        assert_eq!(answer & 31, self.number);
        answer
    }

    fn library(&self, archive: Archive) -> u64 {
        self.read(|sheet, into| archive.read(black_box(&self.bytes), sheet, into))
    }

    fn plain(&self) -> u64 {
        self.read(|sheet, into| plain_read_by_trial(black_box(&self.bytes), sheet, into))
    }

    fn plain_beyond(&self) -> u64 {
        let plan: &Plan = black_box(&self.subject.plan);
        self.read(|sheet, into| read_by_trial_accepted(plan, sheet, into).pack())
    }

    /// What a contender tells and leaves, whatever the data held.
    fn outcome(&self, contender: impl Fn(&Self) -> u64) -> (u64, Vec<u8>, Vec<u8>) {
        self.into.borrow_mut().fill(0xff);
        let answer = contender(self);
        (answer, self.sheet.borrow().clone(), self.into.borrow().clone())
    }
}

fn time(tried: &Tried, what: &str, patterns: usize) {
    let usual = tried.outcome(|tried| tried.library(SHEET));
    assert_eq!(tried.outcome(|tried| tried.library(BY_TRIAL)), usual);
    assert_eq!(tried.outcome(Tried::plain), usual);
    assert_eq!(tried.outcome(Tried::plain_beyond), usual);
    let contenders: [&dyn Fn(); 5] = [
        &|| tried.test(),
        &|| _ = tried.library(BY_TRIAL),
        &|| _ = tried.library(SHEET),
        &|| _ = tried.plain(),
        &|| _ = tried.plain_beyond(),
    ];
    let [test, library, usual, plain, plain_beyond] = in_turns(contenders).map(least);
    let beyond = library - test;
    tried.subject.print();
    println!(
        "{what:>12} {patterns:9} {library:9.1} {usual:9.1} {plain:11.1} {:14.2} {beyond:9.1} {plain_beyond:14.1} {:14.2}",
        library / plain,
        beyond / plain_beyond,
    );
}

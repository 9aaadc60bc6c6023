//! A stack of 64 sheets.

use std::cell::RefCell;
use std::hint::black_box;

use sheet_tests::ffi::{read_stack, SHEET};
use sheet_tests::make::{powers_1x1, powers_3x3, reversed_3x3, CellOrder};
use sheet_tests::model::{write_sheet, Cell};
use sheet_tests::pairs::edge_bursts;
use sheet_tests::rng::Rng;
use sheet_tests::scans::{random_data, turned};
use sheet_tests::stacks::{places, Lent};
use sheet_tests::yardstick::{plain_read_stack, read_stack_accepted};

use crate::subject::{Subject, SUBJECT};
use crate::timing::{in_turns, least};

const SHEETS: usize = 64;

/// Full-size sheets, and smaller ones where the plan test is long beside a read; as they were written, and each
/// with a full burst: at corners, edges and in the middle in turns. Reads: what 64 calls of sheet_read take, each
/// of which tests the plan; the stack tests it once, and what it saves is told in plan tests: 63, but for the
/// spread of long calls. A sheet: a 64th of what the call costs beyond the plan test; in plain Rust it is taken
/// without one.
pub fn stacks() {
    println!();
    println!(
        "A stack of 64 sheets read; least times of whole calls in microseconds. Reads: 64 by sheet_read."
    );
    println!("Saved: reads less library, in plan tests. A sheet: a 64th, without the plan test");
    println!(
        "{SUBJECT}      sheets   library     reads  library/reads  saved  plain Rust  library/plain  \
         a sheet  in plain Rust  library/plain"
    );
    let mut rng = Rng::new(8);
    for (plan, tables) in [
        // The house plan.
        (powers_3x3(512, 698, CellOrder::Sheet, &mut rng), "powers"),
        (powers_1x1(CellOrder::Scattered, &mut rng), "powers"),
        (reversed_3x3(64, 64, CellOrder::Scattered, &mut rng), "others"),
    ] {
        let bursts = edge_bursts(&plan);
        let subject = Subject { plan, tables };
        time_reading(&Stack::new(&subject, &[vec![]], &mut rng), "as written");
        time_reading(&Stack::new(&subject, &bursts, &mut rng), "with bursts");
    }
}

/// What is read: a stack with a burst on each sheet, or none, and what it comes to.
struct Stack<'a> {
    subject: &'a Subject,
    bytes: Vec<u8>,
    lent: RefCell<Lent>,
    /// Byte and bit of each cell that is wrong: a contender that mends them leaves them to be turned over again.
    wrong: Vec<(usize, u8)>,
    mended: Vec<u8>,
    data: Vec<u8>,
}

impl Stack<'_> {
    fn new<'a>(subject: &'a Subject, bursts: &[Vec<Cell>], rng: &mut Rng) -> Stack<'a> {
        let plan = &subject.plan;
        let data: Vec<_> = (0..SHEETS).map(|_| random_data(plan, rng)).collect();
        let written: Vec<_> = data.iter().map(|data| write_sheet(plan, data)).collect();
        let of = bursts.iter().cycle();
        let scans: Vec<_> = written
            .iter()
            .zip(of.clone())
            .map(|(sheet, burst)| turned(plan, sheet, burst))
            .collect();
        let rooms: Vec<_> = (0..SHEETS).map(|sheet| sheet as u16 % 2).collect();
        let place = |sheet: usize, &(i, j): &Cell| {
            let [at, ..] = places(plan, SHEETS, sheet);
            (at.start + i * plan.row_len() + j / 8, 1 << (j % 8))
        };
        let wrong = (0..SHEETS).zip(of);
        Stack {
            subject,
            bytes: plan.encode(),
            lent: RefCell::new(Lent::new(plan, &rooms, &scans, rng)),
            wrong: wrong
                .flat_map(|(sheet, burst)| burst.iter().map(move |at| place(sheet, at)))
                .collect(),
            mended: Lent::new(plan, &rooms, &written, rng).stack,
            data: data.concat(),
        }
    }

    fn test(&self) {
        assert_eq!(SHEET.plan_test(black_box(&self.bytes)), 0);
    }

    /// The bursts are put on the mended sheets again: a few cells, where a copy of the stack would take long.
    fn restore(&self) {
        for &(byte, bit) in &self.wrong {
            self.lent.borrow_mut().stack[byte] ^= bit;
        }
    }

    fn library(&self) {
        let Lent { stack, numbers, data } = &mut *self.lent.borrow_mut();
        assert_eq!(read_stack(black_box(&self.bytes), stack, numbers, data, false), 0);
    }

    fn reads(&self) {
        let Lent { stack, data, .. } = &mut *self.lent.borrow_mut();
        for sheet in 0..SHEETS {
            let [at, _, text] = places(&self.subject.plan, SHEETS, sheet);
            let answer = SHEET.read(black_box(&self.bytes), &mut stack[at], &mut data[text]);
            assert_eq!(answer & 31, 0);
        }
    }

    fn plain_beyond(&self) {
        let Lent { stack, numbers, data } = &mut *self.lent.borrow_mut();
        let plan = black_box(&self.subject.plan);
        assert_eq!(read_stack_accepted(plan, stack, numbers, data), Ok(()));
    }

    fn plain(&self) {
        let Lent { stack, numbers, data } = &mut *self.lent.borrow_mut();
        assert_eq!(plain_read_stack(black_box(&self.bytes), stack, numbers, data), 0);
    }

    fn restored(&self, contender: impl Fn(&Self)) {
        contender(self);
        self.restore();
    }

    /// The contender leaves the written sheets and their data, whatever the buffer held.
    fn assert_done(&self, contender: impl Fn(&Self)) {
        self.lent.borrow_mut().data.fill(0xff);
        contender(self);
        let lent = self.lent.borrow();
        assert!(lent.stack == self.mended && lent.data == self.data, "sheets or data differ");
        drop(lent);
        self.restore();
    }
}

/// The calls with the plain plan test take turns by themselves: they are so long that what is timed after
/// one finds a cold memory.
fn time_reading(stack: &Stack, what: &str) {
    for contender in [Stack::library, Stack::reads, Stack::plain_beyond, Stack::plain] {
        stack.assert_done(contender);
    }
    let contenders: [&dyn Fn(); 4] = [
        &|| stack.test(),
        &|| stack.restored(Stack::library),
        &|| stack.restored(Stack::reads),
        &|| stack.restored(Stack::plain_beyond),
    ];
    let [test, library, reads, plain_beyond] = in_turns(contenders).map(least);
    let [plain] = in_turns([&|| stack.restored(Stack::plain)]).map(least);
    let (sheet, plain_sheet) = ((library - test) / SHEETS as f64, plain_beyond / SHEETS as f64);
    stack.subject.print();
    print!("{what:>12} {library:9.0} {reads:9.0} {:14.2}", library / reads);
    print!(" {:6.1} {plain:11.0} {:14.2}", (reads - library) / test, library / plain);
    println!(" {sheet:8.1} {plain_sheet:14.1} {:14.2}", sheet / plain_sheet);
}

//! The library beside the model.

mod put;
mod trial;

use std::ops::Range;

use crate::answer::Answer;
use crate::ffi::{house_plan, part, Library};
use crate::given::{Given, HOUSE};
use crate::model::{self, by_columns, Cell, Layout, Sums};
use crate::pairs::{difference_of, row_places};
use crate::plan::Plan;
use crate::rng::Rng;
use crate::scans::{random_burst, random_data, turned};
use crate::stacks::Lent;

/// The library's answer to a plan, which must be the model's.
pub fn plan_test(library: &mut Library, bytes: &[u8]) -> u64 {
    let expected = model::test_plan(bytes);
    let answer = library.plan_test(bytes);
    if answer != expected.pack() {
        let told = Answer::unpack(answer);
        panic!("library {told:?}, model {expected:?}, plan {:?}", Plan::parse(bytes));
    }
    answer
}

/// The house plan by its call.
pub fn house_by_call() -> Plan {
    let mut bytes = vec![0; HOUSE.plan_len()];
    assert_eq!(house_plan(&mut bytes, false), 0);
    Plan::parse(&bytes).expect("a made plan is of the right form")
}

/// The packed answer of a making.
pub fn told(outcome: &Result<Plan, Answer>) -> u64 {
    outcome.as_ref().err().map_or(0, |refusal| refusal.pack())
}

/// The library, and a generator for what the buffers hold before a call.
pub struct Harness {
    pub library: Library,
    pub rng: Rng,
}

impl Harness {
    pub fn new(seed: u64) -> Harness {
        Harness { library: Library::new(seed), rng: Rng::new(!seed) }
    }

    /// Make a plan by the library in a buffer of this length. Answer and every byte must be the
    /// model's, and a plan that is made must serve.
    pub fn make(&mut self, given: &Given, len: usize) -> Result<Plan, Answer> {
        let held = self.rng.bytes(len);
        let by_library = |library: &mut Library, plan: &mut [u8]| library.plan_make(given, plan);
        self.made(given, held, by_library, |plan| model::make(given, plan))
    }

    /// Make the house plan in a buffer that holds these bytes, likewise.
    pub fn house_plan(&mut self, held: Vec<u8>) -> Result<Plan, Answer> {
        self.made(&HOUSE, held, Library::house_plan, model::house_plan)
    }

    /// A plan of these numbers in a buffer that holds these bytes, by the library and by the model.
    fn made(
        &mut self,
        given: &Given,
        held: Vec<u8>,
        by_library: impl FnOnce(&mut Library, &mut [u8]) -> u64,
        by_model: impl FnOnce(&mut [u8]) -> Answer,
    ) -> Result<Plan, Answer> {
        let len = held.len();
        let (mut expected, mut plan) = (held.clone(), held);
        let answer = Answer::unpack(by_library(&mut self.library, &mut plan));
        let told = by_model(&mut expected);
        assert_eq!(answer, told, "library on the left, model on the right: {given:?} in {len}");
        assert!(plan == expected, "the plan's bytes differ from the model's: {given:?}");
        if answer.is_refusal() {
            return Err(answer);
        }
        Ok(self.serves(&plan))
    }

    /// The same in a buffer of the right length.
    pub fn make_in_its_length(&mut self, given: &Given) -> Result<Plan, Answer> {
        self.make(given, given.plan_len())
    }

    /// The library accepts the plan, writes a sheet under it, and mends a burst on that.
    fn serves(&mut self, bytes: &[u8]) -> Plan {
        assert_eq!(self.library.plan_test(bytes), 0);
        let plan = Plan::parse(bytes).expect("the plan test has accepted it");
        let written = self.written(plan);
        let burst = random_burst(&written.plan, &mut self.rng);
        self.mends(&written, &burst);
        written.plan
    }

    /// Write by the library. Answer and sheet must be the model's.
    pub fn write(&mut self, plan: &[u8], data: &[u8], sheet_len: usize) -> u64 {
        let by_model = |sheet: &mut [u8]| model::write(plan, data, sheet);
        self.write_beside(Layout::Rows, plan, data, sheet_len, by_model).0
    }

    /// The same by columns.
    pub fn write_by_column(&mut self, plan: &[u8], data: &[u8], sheet_len: usize) -> u64 {
        let by_model = |sheet: &mut [u8]| model::write_by_column(plan, data, sheet);
        self.write_beside(Layout::Columns, plan, data, sheet_len, by_model).0
    }

    /// The same under a plan that is known to be accepted, in a buffer of the right length; the answer, and
    /// the sheet as it is left.
    pub fn written_by_column(&mut self, plan: &Plan, data: &[u8]) -> (u64, Vec<u8>) {
        let by_model = |sheet: &mut [u8]| model::write_by_column_accepted(plan, data, sheet);
        let len = Layout::Columns.sheet_len(plan);
        self.write_beside(Layout::Columns, &plan.encode(), data, len, by_model)
    }

    fn write_beside(
        &mut self,
        layout: Layout,
        plan: &[u8],
        data: &[u8],
        sheet_len: usize,
        by_model: impl FnOnce(&mut [u8]) -> Answer,
    ) -> (u64, Vec<u8>) {
        let held = self.rng.bytes(sheet_len);
        let (mut expected, mut sheet) = (held.clone(), held);
        let answer = self.library.write_in(layout, plan, data, &mut sheet);
        let told = by_model(&mut expected);
        assert_eq!(answer, told.pack(), "library {:?}, model {told:?}", Answer::unpack(answer));
        assert!(sheet == expected, "the written sheet differs from the model's");
        (answer, sheet)
    }

    /// Read by the library. Answer, sheet and data must be the model's.
    pub fn read(&mut self, plan: &[u8], scan: &[u8], data_len: usize) -> u64 {
        let by_model = |sheet: &mut [u8], data: &mut [u8]| model::read(plan, sheet, data);
        self.read_beside(Layout::Rows, plan, scan, data_len, by_model).0
    }

    /// The same by columns.
    pub fn read_by_column(&mut self, plan: &[u8], scan: &[u8], data_len: usize) -> u64 {
        let by_model = |sheet: &mut [u8], data: &mut [u8]| model::read_by_column(plan, sheet, data);
        self.read_beside(Layout::Columns, plan, scan, data_len, by_model).0
    }

    /// The same under a plan that is known to be accepted, with data of the right length; the answer, and
    /// sheet and data as they are left.
    pub fn columns_read(&mut self, plan: &Plan, scan: &[u8]) -> (u64, [Vec<u8>; 2]) {
        let by_model =
            |sheet: &mut [u8], data: &mut [u8]| model::read_by_column_accepted(plan, sheet, data);
        self.read_beside(Layout::Columns, &plan.encode(), scan, plan.data_len(), by_model)
    }

    fn read_beside(
        &mut self,
        layout: Layout,
        plan: &[u8],
        scan: &[u8],
        data_len: usize,
        by_model: impl FnOnce(&mut [u8], &mut [u8]) -> Answer,
    ) -> (u64, [Vec<u8>; 2]) {
        let held = self.rng.bytes(data_len);
        let (mut expected, mut expected_data) = (scan.to_vec(), held.clone());
        let (mut sheet, mut data) = (scan.to_vec(), held);
        let answer = self.library.read_in(layout, plan, &mut sheet, &mut data);
        let told = by_model(&mut expected, &mut expected_data);
        assert_eq!(answer, told.pack(), "library {:?}, model {told:?}", Answer::unpack(answer));
        assert!(sheet == expected, "the sheet differs from the model's");
        assert!(data == expected_data, "the data differs from the model's");
        (answer, [sheet, data])
    }

    /// Turn a sheet from this layout into the other by the library, into a buffer of this length. Answer and
    /// every byte of it must be the model's.
    pub fn turn(&mut self, from: Layout, plan: &[u8], source: &[u8], target_len: usize) -> u64 {
        let by_model = |target: &mut [u8]| model::turn(from, plan, source, target);
        self.turn_beside(from, plan, source, target_len, by_model).0
    }

    /// The same under a plan that is known to be accepted, into a buffer of the right length; the answer, and
    /// the buffer as it is left.
    pub fn turned_from(&mut self, from: Layout, plan: &Plan, source: &[u8]) -> (u64, Vec<u8>) {
        let by_model = |target: &mut [u8]| model::turn_accepted(from, plan, source, target);
        let len = from.other().sheet_len(plan);
        self.turn_beside(from, &plan.encode(), source, len, by_model)
    }

    fn turn_beside(
        &mut self,
        from: Layout,
        plan: &[u8],
        source: &[u8],
        target_len: usize,
        by_model: impl FnOnce(&mut [u8]) -> Answer,
    ) -> (u64, Vec<u8>) {
        let held = self.rng.bytes(target_len);
        let (mut expected, mut target) = (held.clone(), held);
        let answer = self.library.turn(from, plan, source, &mut target);
        let told = by_model(&mut expected);
        let both = format!("library {:?}, model {told:?}, from {from:?}", Answer::unpack(answer));
        assert_eq!(answer, told.pack(), "{both}");
        assert!(target == expected, "the target differs from the model's: {both}");
        (answer, target)
    }

    /// The sums of a run by the library, in a buffer of this length. Answer and every byte of it must be
    /// the model's.
    pub fn sums(&mut self, plan: &[u8], sheet: &[u8], run: Range<u32>, sums_len: usize) -> u64 {
        let held = self.rng.bytes(sums_len);
        let (mut expected, mut sums) = (held.clone(), held);
        let answer = self.library.sums(plan, sheet, run.clone(), &mut sums);
        let told = model::sums(plan, sheet, run.clone(), &mut expected);
        let both = format!("library {:?}, model {told:?}, run {run:?}", Answer::unpack(answer));
        assert_eq!(answer, told.pack(), "{both}");
        assert_eq!(sums, expected, "library on the left, model on the right: {both}");
        answer
    }

    /// The V sum and the H sum of a run by the library, which must be the model's. The plan must be
    /// accepted and the sheet of the right form.
    pub fn run_sums(&mut self, plan: &Plan, sheet: &[u8], run: Range<u32>) -> Sums {
        let mut sums: [u8; 8] = [(); 8].map(|()| self.rng.bits(8) as u8);
        assert_eq!(self.library.sums(&plan.encode(), sheet, run.clone(), &mut sums), 0);
        let number = |at: usize| u32::from_le_bytes([0, 1, 2, 3].map(|byte| sums[at + byte]));
        let (v, h) = (number(0), number(4));
        let expected = model::run_sums(plan, sheet, run.clone());
        assert_eq!((v, h), expected, "library on the left, model on the right: {run:?}, {plan:?}");
        (v, h)
    }

    /// Alter one data bit of a sheet by the library. Answer and every byte of the sheet must be the
    /// model's.
    pub fn alter(&mut self, plan: &[u8], sheet: &[u8], position: u32) -> u64 {
        let by_model = |sheet: &mut [u8]| model::alter(plan, sheet, position);
        self.altered_beside(plan, sheet, position, by_model).0
    }

    /// The same under a plan that is known to be accepted; the answer, and the sheet as it is left.
    pub fn altered(&mut self, plan: &Plan, sheet: &[u8], position: u32) -> (u64, Vec<u8>) {
        let by_model = |sheet: &mut [u8]| model::alter_accepted(plan, sheet, position);
        self.altered_beside(&plan.encode(), sheet, position, by_model)
    }

    fn altered_beside(
        &mut self,
        plan: &[u8],
        sheet: &[u8],
        position: u32,
        by_model: impl FnOnce(&mut [u8]) -> Answer,
    ) -> (u64, Vec<u8>) {
        let (mut expected, mut left) = (sheet.to_vec(), sheet.to_vec());
        let answer = self.library.alter(plan, &mut left, position);
        let told = by_model(&mut expected);
        let both =
            format!("library {:?}, model {told:?}, position {position}", Answer::unpack(answer));
        assert_eq!(answer, told.pack(), "{both}");
        assert!(left == expected, "the altered sheet differs from the model's: {both}");
        (answer, left)
    }

    /// Read two scans by the library, into a buffer of this length. Answer and every byte of it must be the
    /// model's.
    pub fn read_two(&mut self, plan: &[u8], first: &[u8], second: &[u8], data_len: usize) -> u64 {
        let by_model = |data: &mut [u8]| model::read_two(plan, first, second, data);
        self.two_beside(plan, [first, second], data_len, by_model).0
    }

    /// The same under a plan that is known to be accepted, into a buffer of the right length; the answer,
    /// and the buffer as it is left.
    pub fn both_read(&mut self, plan: &Plan, first: &[u8], second: &[u8]) -> (u64, Vec<u8>) {
        let by_model = |data: &mut [u8]| model::read_two_accepted(plan, first, second, data);
        self.two_beside(&plan.encode(), [first, second], plan.data_len(), by_model)
    }

    fn two_beside(
        &mut self,
        plan: &[u8],
        [first, second]: [&[u8]; 2],
        data_len: usize,
        by_model: impl FnOnce(&mut [u8]) -> Answer,
    ) -> (u64, Vec<u8>) {
        let held = self.rng.bytes(data_len);
        let (mut expected, mut data) = (held.clone(), held);
        let answer = self.library.read_two(plan, first, second, &mut data);
        let told = by_model(&mut expected);
        assert_eq!(answer, told.pack(), "library {:?}, model {told:?}", Answer::unpack(answer));
        assert!(data == expected, "the data differs from the model's: {told:?}");
        (answer, data)
    }

    /// The row where two scans first differ by the library, as its places in the second scan: the model's.
    /// None if the part is empty.
    pub fn first_difference(&mut self, plan: &[u8], first: &[u8], second: &[u8]) -> Range<usize> {
        let expected = model::first_difference(plan, first, second);
        self.difference_beside(plan, first, second, expected)
    }

    /// The same under a plan that is known to be accepted.
    pub fn differing_row(&mut self, plan: &Plan, first: &[u8], second: &[u8]) -> Range<usize> {
        let expected = model::first_difference_accepted(plan, first, second);
        self.difference_beside(&plan.encode(), first, second, expected)
    }

    /// The row where two scans differ first, which must be that of the first of these cells: those in which
    /// they differ. It is told as it lies in the second scan.
    pub fn differs_first(&mut self, plan: &Plan, scans: [&[u8]; 2], cells: &[Cell]) {
        let row = cells.iter().map(|cell| cell.0).min();
        let places = row.map_or(0..0, |row| row_places(plan, row));
        let told = self.library.first_difference(&plan.encode(), scans[0], scans[1]);
        assert_eq!(told, difference_of(&places), "{cells:?} under {plan:?}");
    }

    fn difference_beside(
        &mut self,
        plan: &[u8],
        first: &[u8],
        second: &[u8],
        expected: Range<usize>,
    ) -> Range<usize> {
        let difference = self.library.first_difference(plan, first, second);
        let told = difference_of(&expected);
        assert_eq!(difference, told, "library on the left, model on the right: {expected:?}");
        let row = part(second, difference);
        assert_eq!(row.as_ptr(), second[expected.start..].as_ptr(), "the part lies elsewhere");
        assert!(row == &second[expected.clone()]);
        expected
    }

    /// Read a stack by the library in these buffers. Answer and every byte of them must be the model's; they
    /// are handed back as they are left.
    pub fn read_stack(&mut self, plan: &[u8], lent: &Lent) -> (u64, Lent) {
        self.stack_beside(plan, lent, |lent| {
            model::read_stack(plan, &mut lent.stack, &mut lent.numbers, &mut lent.data)
        })
    }

    /// The same under a plan that is known to be accepted.
    pub fn stack_read(&mut self, plan: &Plan, lent: &Lent) -> (u64, Lent) {
        self.stack_beside(&plan.encode(), lent, |lent| {
            model::read_stack_accepted(plan, &mut lent.stack, &mut lent.numbers, &mut lent.data)
        })
    }

    fn stack_beside(
        &mut self,
        plan: &[u8],
        lent: &Lent,
        by_model: impl FnOnce(&mut Lent) -> Answer,
    ) -> (u64, Lent) {
        let (mut left, mut expected) = (lent.clone(), lent.clone());
        let answer = self.library.read_stack(plan, &mut left);
        let told = by_model(&mut expected);
        assert_eq!(answer, told.pack(), "library {:?}, model {told:?}", Answer::unpack(answer));
        assert!(left.stack == expected.stack, "the stack differs from the model's");
        assert!(left.numbers == expected.numbers, "the numbers differ from the model's");
        assert!(left.data == expected.data, "the data differs from the model's");
        (answer, left)
    }

    /// A sheet that the library wrote from random data, compared with the model's.
    pub fn written(&mut self, plan: Plan) -> Written {
        let bytes = plan.encode();
        let data = random_data(&plan, &mut self.rng);
        assert_eq!(self.write(&bytes, &data, plan.sheet_len()), 0);
        let sheet = model::write_sheet(&plan, &data);
        Written { plan, bytes, data, sheet }
    }

    /// The same under a plan that is known to be accepted, which the model does not test anew.
    pub fn written_accepted(&mut self, plan: Plan) -> Written {
        let bytes = plan.encode();
        let data = random_data(&plan, &mut self.rng);
        let mut sheet = self.rng.bytes(plan.sheet_len());
        assert_eq!(self.library.write(&bytes, &data, &mut sheet), 0);
        assert!(sheet == model::write_sheet(&plan, &data), "the sheet differs from the model's");
        Written { plan, bytes, data, sheet }
    }

    /// Demand 3: from the written sheet with a burst on it, the library gives back every byte of
    /// the sheet, the data, the number of cells and the smallest rectangle that holds them.
    pub fn mends(&mut self, written: &Written, burst: &[Cell]) {
        self.mends_in(Layout::Rows, written, burst);
    }

    /// The same of the sheet in this layout.
    pub fn mends_in(&mut self, layout: Layout, written: &Written, burst: &[Cell]) {
        let Written { plan, bytes, data, sheet } = written;
        let mut scan = layout.of_rows(plan, turned(plan, sheet, burst));
        let mut text = self.rng.bytes(data.len());
        let answer = self.library.read_in(layout, bytes, &mut scan, &mut text);
        assert_eq!(answer, model::smallest_rectangle(burst).pack(), "{burst:?} under {plan:?}");
        assert!(scan == layout.of_rows(plan, sheet.clone()), "{burst:?} left a trace: {plan:?}");
        assert!(text == *data, "{burst:?} spoilt the data under {plan:?}");
    }

    /// 02 i): a sheet by rows of the right form is read by rows, and turned it is read by columns. The answers
    /// are the same, and so are the data; and what is left by columns is what is left by rows, turned.
    pub fn reads_alike(&mut self, plan: &Plan, sheet: &[u8]) -> u64 {
        let (bytes, held) = (plan.encode(), self.rng.bytes(plan.data_len()));
        let (mut rows, mut data) = (sheet.to_vec(), held.clone());
        let answer = self.library.read(&bytes, &mut rows, &mut data);
        let (mut columns, mut other_data) = (by_columns(plan, sheet), held);
        let by_column =
            self.library.read_in(Layout::Columns, &bytes, &mut columns, &mut other_data);
        let [one, other] = [answer, by_column].map(Answer::unpack);
        assert_eq!(one, other, "by rows on the left, by columns on the right: {plan:?}");
        assert!(data == other_data, "the data differ under {plan:?}");
        assert!(columns == by_columns(plan, &rows), "what is left differs under {plan:?}");
        answer
    }
}

/// A plan, data, and the written sheet.
pub struct Written {
    pub plan: Plan,
    pub bytes: Vec<u8>,
    pub data: Vec<u8>,
    pub sheet: Vec<u8>,
}

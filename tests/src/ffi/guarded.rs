//! The calls on guarded buffers.

use std::ops::Range;

use super::{
    alter, first_difference, house_plan, plan_make, put_back, read_stack, read_two, sums, turn,
    Archive, BY_TRIAL, SHEET,
};
use crate::answer::Answer;
use crate::given::Given;
use crate::model::Layout;
use crate::rng::Rng;
use crate::stacks::Lent;

/// The calls on guarded buffers: each buffer lies amid random bytes at a random alignment, and
/// after the call no byte may have changed but those that the call may write. An empty buffer is
/// handed over as null in about half of the calls.
pub struct Library {
    rng: Rng,
}

impl Library {
    /// The seed is that of the guard bytes.
    pub fn new(seed: u64) -> Library {
        Library { rng: Rng::new(seed) }
    }

    /// The archive, with null for empty buffers or not.
    fn archive(&mut self, archive: Archive) -> Archive {
        if self.rng.one_in(2) {
            archive.with_null()
        } else {
            archive
        }
    }

    pub fn plan_make(&mut self, given: &Given, plan: &mut [u8]) -> u64 {
        self.made(plan, |target, null| plan_make(given, target, null))
    }

    pub fn house_plan(&mut self, plan: &mut [u8]) -> u64 {
        self.made(plan, house_plan)
    }

    /// A call that makes a plan and has no other buffer.
    fn made(&mut self, plan: &mut [u8], call: impl FnOnce(&mut [u8], bool) -> u64) -> u64 {
        let mut target = Guarded::new("plan", plan, &mut self.rng);
        let null = self.rng.one_in(2);
        let answer = call(target.content_mut(), null);
        target.hand_back(answer, plan);
        answer
    }

    pub fn plan_test(&mut self, plan: &[u8]) -> u64 {
        let plan = Guarded::new("plan", plan, &mut self.rng);
        let answer = self.archive(SHEET).plan_test(plan.content());
        plan.assert_unchanged();
        answer
    }

    pub fn write(&mut self, plan: &[u8], data: &[u8], sheet: &mut [u8]) -> u64 {
        self.write_in(Layout::Rows, plan, data, sheet)
    }

    /// Write a sheet in this layout.
    pub fn write_in(&mut self, layout: Layout, plan: &[u8], data: &[u8], sheet: &mut [u8]) -> u64 {
        let plan = Guarded::new("plan", plan, &mut self.rng);
        let data = Guarded::new("data", data, &mut self.rng);
        let mut target = Guarded::new("sheet", sheet, &mut self.rng);
        let archive = self.archive(Archive::of(layout));
        let answer = archive.write(plan.content(), data.content(), target.content_mut());
        plan.assert_unchanged();
        data.assert_unchanged();
        target.hand_back(answer, sheet);
        answer
    }

    pub fn read(&mut self, plan: &[u8], sheet: &mut [u8], data: &mut [u8]) -> u64 {
        self.read_in(Layout::Rows, plan, sheet, data)
    }

    /// Read a sheet in this layout.
    pub fn read_in(
        &mut self,
        layout: Layout,
        plan: &[u8],
        sheet: &mut [u8],
        data: &mut [u8],
    ) -> u64 {
        self.read_by(Archive::of(layout), plan, sheet, data)
    }

    pub fn read_by_trial(&mut self, plan: &[u8], sheet: &mut [u8], data: &mut [u8]) -> u64 {
        self.read_by(BY_TRIAL, plan, sheet, data)
    }

    fn read_by(&mut self, archive: Archive, plan: &[u8], sheet: &mut [u8], data: &mut [u8]) -> u64 {
        let plan = Guarded::new("plan", plan, &mut self.rng);
        let mut scan = Guarded::new("sheet", sheet, &mut self.rng);
        let mut target = Guarded::new("data", data, &mut self.rng);
        let archive = self.archive(archive);
        let answer = archive.read(plan.content(), scan.content_mut(), target.content_mut());
        plan.assert_unchanged();
        scan.hand_back(answer, sheet);
        target.hand_back(answer, data);
        answer
    }

    pub fn sums(&mut self, plan: &[u8], sheet: &[u8], run: Range<u32>, into: &mut [u8]) -> u64 {
        let plan = Guarded::new("plan", plan, &mut self.rng);
        let sheet = Guarded::new("sheet", sheet, &mut self.rng);
        let mut target = Guarded::new("sums", into, &mut self.rng);
        let null = self.rng.one_in(2);
        let answer = sums(plan.content(), sheet.content(), run, target.content_mut(), null);
        plan.assert_unchanged();
        sheet.assert_unchanged();
        target.hand_back(answer, into);
        answer
    }

    pub fn alter(&mut self, plan: &[u8], sheet: &mut [u8], position: u32) -> u64 {
        let plan = Guarded::new("plan", plan, &mut self.rng);
        let mut target = Guarded::new("sheet", sheet, &mut self.rng);
        let null = self.rng.one_in(2);
        let answer = alter(plan.content(), target.content_mut(), position, null);
        plan.assert_unchanged();
        target.hand_back(answer, sheet);
        answer
    }

    pub fn put_back(&mut self, plan: &[u8], sheet: &mut [u8], answer: u64) -> u64 {
        let plan = Guarded::new("plan", plan, &mut self.rng);
        let mut target = Guarded::new("sheet", sheet, &mut self.rng);
        let null = self.rng.one_in(2);
        let told = put_back(plan.content(), target.content_mut(), answer, null);
        plan.assert_unchanged();
        target.hand_back(told, sheet);
        told
    }

    pub fn read_two(&mut self, plan: &[u8], first: &[u8], second: &[u8], data: &mut [u8]) -> u64 {
        let plan = Guarded::new("plan", plan, &mut self.rng);
        let first = Guarded::new("first scan", first, &mut self.rng);
        let second = Guarded::new("second scan", second, &mut self.rng);
        let mut target = Guarded::new("data", data, &mut self.rng);
        let (null, into) = (self.rng.one_in(2), target.content_mut());
        let answer = read_two(plan.content(), first.content(), second.content(), into, null);
        plan.assert_unchanged();
        first.assert_unchanged();
        second.assert_unchanged();
        target.hand_back(answer, data);
        answer
    }

    pub fn first_difference(&mut self, plan: &[u8], first: &[u8], second: &[u8]) -> u64 {
        let plan = Guarded::new("plan", plan, &mut self.rng);
        let first = Guarded::new("first scan", first, &mut self.rng);
        let second = Guarded::new("second scan", second, &mut self.rng);
        let null = self.rng.one_in(2);
        let difference = first_difference(plan.content(), first.content(), second.content(), null);
        plan.assert_unchanged();
        first.assert_unchanged();
        second.assert_unchanged();
        difference
    }

    pub fn read_stack(&mut self, plan: &[u8], lent: &mut Lent) -> u64 {
        let plan = Guarded::new("plan", plan, &mut self.rng);
        let mut stack = Guarded::new("stack", &lent.stack, &mut self.rng);
        let mut numbers = Guarded::new("numbers", &lent.numbers, &mut self.rng);
        let mut data = Guarded::new("data", &lent.data, &mut self.rng);
        let null = self.rng.one_in(2);
        let answer = read_stack(
            plan.content(),
            stack.content_mut(),
            numbers.content_mut(),
            data.content_mut(),
            null,
        );
        plan.assert_unchanged();
        stack.hand_back(answer, &mut lent.stack);
        numbers.hand_back(answer, &mut lent.numbers);
        data.hand_back(answer, &mut lent.data);
        answer
    }

    /// Turn a sheet from this layout into the other.
    pub fn turn(&mut self, from: Layout, plan: &[u8], sheet: &[u8], into: &mut [u8]) -> u64 {
        let plan = Guarded::new("plan", plan, &mut self.rng);
        let source = Guarded::new("source", sheet, &mut self.rng);
        let mut target = Guarded::new("target", into, &mut self.rng);
        let null = self.rng.one_in(2);
        let answer = turn(from, plan.content(), source.content(), target.content_mut(), null);
        plan.assert_unchanged();
        source.assert_unchanged();
        target.hand_back(answer, into);
        answer
    }
}

/// A buffer in the middle of a larger one, and what the larger one held before the call.
struct Guarded {
    name: &'static str,
    all: Vec<u8>,
    before: Vec<u8>,
    start: usize,
    end: usize,
}

impl Guarded {
    fn new(name: &'static str, content: &[u8], rng: &mut Rng) -> Guarded {
        let (start, after) = (rng.within(16, 79), rng.within(16, 79));
        let mut all = rng.bytes(start);
        all.extend(content);
        all.extend(rng.bytes(after));
        Guarded { name, before: all.clone(), all, start, end: start + content.len() }
    }

    fn content(&self) -> &[u8] {
        &self.all[self.start..self.end]
    }

    fn assert_unchanged(&self) {
        assert!(self.all == self.before, "the {} or a byte around it was changed", self.name);
    }

    fn content_mut(&mut self) -> &mut [u8] {
        &mut self.all[self.start..self.end]
    }

    /// Copy back what the call left in a buffer that it may write unless it refuses.
    fn hand_back(&self, answer: u64, into: &mut [u8]) {
        if Answer::unpack(answer).is_refusal() {
            self.assert_unchanged();
        }
        let kept = self.all[..self.start] == self.before[..self.start]
            && self.all[self.end..] == self.before[self.end..];
        assert!(kept, "a byte around the {} was changed", self.name);
        into.copy_from_slice(self.content());
    }
}

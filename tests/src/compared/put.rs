//! Putting a burst back: the library beside the model, and after each reader.

use super::Harness;
use crate::answer::Answer;
use crate::model::{self, by_columns, by_rows, cells_told, Layout};
use crate::plan::Plan;
use crate::scans::turned;
use crate::stacks::{places, told_of, Lent};

impl Harness {
    /// Put a burst back by the library. Answer and every byte of the sheet must be the model's.
    pub fn put_back(&mut self, plan: &[u8], sheet: &[u8], answer: u64) -> u64 {
        let by_model = |sheet: &mut [u8]| model::put_back(plan, sheet, answer);
        self.put_beside(plan, sheet, answer, by_model).0
    }

    /// The same under a plan that is known to be accepted; the answer, and the sheet as it is left.
    pub fn put(&mut self, plan: &Plan, sheet: &[u8], answer: u64) -> (u64, Vec<u8>) {
        let by_model = |sheet: &mut [u8]| model::put_back_accepted(plan, sheet, answer);
        self.put_beside(&plan.encode(), sheet, answer, by_model)
    }

    fn put_beside(
        &mut self,
        plan: &[u8],
        sheet: &[u8],
        answer: u64,
        by_model: impl FnOnce(&mut [u8]) -> Answer,
    ) -> (u64, Vec<u8>) {
        let (mut expected, mut left) = (sheet.to_vec(), sheet.to_vec());
        let told = self.library.put_back(plan, &mut left, answer);
        let by_model = by_model(&mut expected);
        let of = Answer::told_by(answer);
        let both = format!("library {told:#x}, model {by_model:?}, answer {answer:#x}, {of:?}");
        assert_eq!(told, by_model.pack(), "{both}");
        assert!(left == expected, "the sheet differs from the model's: {both}");
        (told, left)
    }

    /// A good answer is put back on the sheet, which need not belong: exactly its cells are turned over, and put back
    /// twice is nothing.
    pub fn puts(&mut self, plan: &Plan, sheet: &[u8], answer: u64) {
        let (told, left) = self.put(plan, sheet, answer);
        let cells = cells_told(Answer::unpack(answer));
        assert_eq!(told, 0, "{cells:?} under {plan:?}");
        assert!(left == turned(plan, sheet, &cells), "{cells:?} under {plan:?}");
        let mut again = left;
        assert_eq!(self.library.put_back(&plan.encode(), &mut again, answer), 0);
        assert!(again == sheet, "{cells:?} twice under {plan:?}");
    }

    /// 02 k): a scan is read by rows, by columns and in a stack, and by trial if that is asked for. From the sheet
    /// that each leaves and its answer the scan is restored, bit for bit. A scan that is refused stays as it is, and
    /// its answer is turned back. What the reader told is handed back.
    pub fn restores(&mut self, plan: &Plan, scan: &[u8], by_trial: bool) -> u64 {
        let (bytes, held) = (plan.encode(), self.rng.bytes(plan.data_len()));
        let (mut sheet, mut data) = (scan.to_vec(), held.clone());
        let answer = self.library.read(&bytes, &mut sheet, &mut data);
        let mut left = vec![sheet];
        if by_trial {
            let (mut sheet, mut data) = (scan.to_vec(), held.clone());
            assert_eq!(self.library.read_by_trial(&bytes, &mut sheet, &mut data), answer);
            left.push(sheet);
        }
        // The unused bits of a sheet by rows have no place in one by columns.
        if answer & 31 != 13 {
            let (mut sheet, mut data) = (by_columns(plan, scan), held);
            let by_column = self.library.read_in(Layout::Columns, &bytes, &mut sheet, &mut data);
            assert_eq!(by_column, answer, "by columns on the left");
            left.push(by_rows(plan, &sheet));
        }
        let mut lent = Lent::new(plan, &[0], &[scan.to_vec()], &mut self.rng);
        assert_eq!(self.library.read_stack(&bytes, &mut lent), 0);
        assert_eq!(told_of(&lent.numbers, 0).pack(), answer, "of a stack on the left");
        let [place, ..] = places(plan, 1, 0);
        left.push(lent.stack[place].to_vec());
        let expected = match answer & 31 {
            0 => 0,
            13 => answer,
            _ => 22,
        };
        for mut sheet in left {
            assert_eq!(self.library.put_back(&bytes, &mut sheet, answer), expected, "{answer:#x}");
            assert!(sheet == scan, "the scan is not restored: {answer:#x} under {plan:?}");
        }
        answer
    }
}

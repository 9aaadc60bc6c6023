//! Reading by trial: the library beside the model's trial, and beside its own usual reader.

use super::{Harness, Written};
use crate::answer::Answer;
use crate::model::{self, Cell};
use crate::plan::Plan;
use crate::scans::turned;

impl Harness {
    /// Read by trial by the library. Answer, sheet and data must be those of the model's trial, and those of
    /// sheet_read.
    pub fn read_by_trial(&mut self, plan: &[u8], scan: &[u8], data_len: usize) -> u64 {
        let by_model = |sheet: &mut [u8], data: &mut [u8]| model::read_by_trial(plan, sheet, data);
        self.trial_beside(plan, scan, data_len, by_model).0
    }

    /// The same under a plan that is known to be accepted, with data of the right length; the answer, and sheet and
    /// data as they are left.
    pub fn trial_read(&mut self, plan: &Plan, scan: &[u8]) -> (u64, [Vec<u8>; 2]) {
        let by_model =
            |sheet: &mut [u8], data: &mut [u8]| model::read_by_trial_accepted(plan, sheet, data);
        self.trial_beside(&plan.encode(), scan, plan.data_len(), by_model)
    }

    /// The same beside the model's usual reader: its trial takes too long on large sheets.
    pub fn trial_read_of_large(&mut self, plan: &Plan, scan: &[u8]) -> (u64, [Vec<u8>; 2]) {
        let by_model = |sheet: &mut [u8], data: &mut [u8]| model::read_accepted(plan, sheet, data);
        self.trial_beside(&plan.encode(), scan, plan.data_len(), by_model)
    }

    fn trial_beside(
        &mut self,
        plan: &[u8],
        scan: &[u8],
        data_len: usize,
        by_model: impl FnOnce(&mut [u8], &mut [u8]) -> Answer,
    ) -> (u64, [Vec<u8>; 2]) {
        let held = self.rng.bytes(data_len);
        let [mut tried, mut usual, mut expected] = [(); 3].map(|()| [scan.to_vec(), held.clone()]);
        let [sheet, data] = &mut tried;
        let answer = self.library.read_by_trial(plan, sheet, data);
        let [sheet, data] = &mut usual;
        let usual_answer = self.library.read(plan, sheet, data);
        let [sheet, data] = &mut expected;
        let told = by_model(sheet, data);
        let [by_trial, by_read] = [answer, usual_answer].map(Answer::unpack);
        assert_eq!(by_trial, told, "by trial on the left, model on the right: {scan:x?}");
        assert_eq!(by_trial, by_read, "by trial on the left, sheet_read on the right: {scan:x?}");
        assert!(tried == expected, "the sheet or the data differs from the model's: {told:?}");
        assert!(tried == usual, "the sheet or the data differs from sheet_read's: {told:?}");
        (answer, tried)
    }

    /// Demand 3 by trial: from the written sheet with a burst on it, every byte of the sheet, the data, the number of
    /// cells and the smallest rectangle that holds them.
    pub fn mends_by_trial(&mut self, written: &Written, burst: &[Cell]) {
        let Written { plan, data, sheet, .. } = written;
        let (answer, [left, text]) = self.trial_read(plan, &turned(plan, sheet, burst));
        assert_eq!(answer, model::smallest_rectangle(burst).pack(), "{burst:?} under {plan:?}");
        assert!(left == *sheet, "{burst:?} left a trace: {plan:?}");
        assert!(text == *data, "{burst:?} spoilt the data under {plan:?}");
    }
}

//! The plans that are timed.

use sheet_tests::make::{powers_1x1, powers_3x3, reversed_3x3, CellOrder};
use sheet_tests::plan::Plan;
use sheet_tests::rng::Rng;

pub const SIZES: [(usize, usize); 3] = [(64, 64), (256, 256), (512, 698)];

/// A plan to time, and the kind of its tables.
pub struct Subject {
    pub plan: Plan,
    pub tables: &'static str,
}

/// For each size a plan of each kind of tables, with 3 x 3 bursts.
pub fn subjects(rng: &mut Rng) -> Vec<Subject> {
    let mut subjects = Vec::new();
    for (n1, n2) in SIZES {
        let order = CellOrder::Scattered;
        subjects.push(Subject { plan: powers_3x3(n1, n2, order, rng), tables: "powers" });
        subjects.push(Subject { plan: reversed_3x3(n1, n2, order, rng), tables: "others" });
    }
    subjects
}

/// The same; one with bursts of one cell, where the plan test is short; and one whose rows end
/// within a byte and whose check cells are all in odd rows, where the data runs down between them.
pub fn sheets(rng: &mut Rng) -> Vec<Subject> {
    let mut subjects = subjects(rng);
    subjects.push(Subject { plan: powers_1x1(CellOrder::Scattered, rng), tables: "powers" });
    subjects.push(Subject { plan: powers_3x3(61, 67, CellOrder::OddRows, rng), tables: "powers" });
    subjects
}

impl Subject {
    pub fn print(&self) {
        let Plan { n1, n2, b1, b2, .. } = self.plan;
        print!("{n1:4} x {n2:<4} {b1} x {b2}  {:6}", self.tables);
    }
}

/// Heads the columns that `Subject::print` fills.
pub const SUBJECT: &str = "     size   burst  tables";

//! Sheets under plans for bursts of at most one cell or two (02 m), each call beside the model: every burst
//! of so few cells, denser ones, every sheet of the smallest plans, by rows, by columns, in stacks, by two
//! heads, by trial; bursts put back, data bits altered, sums; full size.

use sheet_tests::answer::Answer;
use sheet_tests::cases::{plan_s, plan_t, plan_two_rows};
use sheet_tests::compared::{Harness, Written};
use sheet_tests::make::{accepted_with, burst_sizes, CellOrder};
use sheet_tests::model::{self, smallest_rectangle, Cell, Layout};
use sheet_tests::pairs::{check_burst, edge_bursts};
use sheet_tests::plan::Plan;
use sheet_tests::positions::every_position;
use sheet_tests::puts::every_answer;
use sheet_tests::rng::Rng;
use sheet_tests::runs::{sums_of, whole};
use sheet_tests::scans::{
    burst, denser_bursts_at, every_burst, every_denser_burst, every_sheet, full_burst,
    random_burst, random_sheet, turned,
};
use sheet_tests::sparse::{few_of_4x4, reversed_4x4, tight, with_t};
use sheet_tests::stacks::{random_rooms, told_of, Lent};
use sheet_tests::tally::Tally;
use sheet_tests::trials::MOST_TRIED;

/// Small plans for bursts of at most t cells of b1 × b2: with as few digits as can be filled, and others.
fn small_plans(rng: &mut Rng, [b1, b2, t]: [usize; 3]) -> Vec<Plan> {
    let sizes = [b1 + 1 + rng.below(6), b2 + 1 + rng.below(6), b1, b2];
    let mut plans = vec![accepted_with(rng, [b1, b2, t], 5)];
    plans.extend(tight(rng, sizes, t));
    plans
}

/// Is the sheet so small, and are the patterns so few, that it is read by trial too?
fn is_tried(plan: &Plan) -> bool {
    plan.n1 * plan.n2 <= MOST_TRIED && plan.b1 * plan.b2 <= 9
}

/// The scan by every reader, which are alike, and put back after each; told is what the model tells.
fn read_by_all(harness: &mut Harness, plan: &Plan, scan: &[u8]) -> u64 {
    let answer = harness.restores(plan, scan, is_tried(plan));
    let mut data = vec![0; plan.data_len()];
    let told = model::read_accepted(plan, &mut scan.to_vec(), &mut data);
    assert_eq!(Answer::unpack(answer), told, "{plan:?}");
    answer
}

/// Demand 3 for every burst of at most t cells, by every reader: the sheet, the data, the count, the
/// smallest rectangle and the pattern. Beside each another on a second scan, as two heads read them.
#[test]
fn every_burst_of_few_cells() {
    let mut harness = Harness::new(221);
    let (mut plans, mut bursts, mut two) = (0, 0, 0);
    for (b1, b2) in burst_sizes() {
        for t in [1, 2] {
            for plan in small_plans(&mut harness.rng, [b1, b2, t]) {
                let written = harness.written(plan);
                let Written { plan, sheet, data, bytes } = &written;
                for cells in every_burst(plan) {
                    harness.mends(&written, &cells);
                    let scan = turned(plan, sheet, &cells);
                    let answer = read_by_all(&mut harness, plan, &scan);
                    assert_eq!(answer, smallest_rectangle(&cells).pack(), "{cells:?} {plan:?}");
                    bursts += 1;
                    two += usize::from(cells.len() == 2);
                    let other = random_burst(plan, &mut harness.rng);
                    let second = turned(plan, sheet, &other);
                    let mut text = harness.rng.bytes(data.len());
                    assert_eq!(harness.library.read_two(bytes, &scan, &second, &mut text), 0);
                    assert!(text == *data, "{cells:?} and {other:?} under {plan:?}");
                }
                plans += 1;
            }
        }
    }
    println!(
        "{bursts} bursts of at most one cell or two, {two} of two, on sheets of {plans} plans"
    );
    assert!(plans >= 60 && bursts >= 10_000 && two >= 5_000);
}

/// One cell more than a burst has: 14, or another mend, as the model says; and its answer is none to put
/// back.
#[test]
fn denser_bursts() {
    let mut harness = Harness::new(222);
    for t in [1, 2] {
        let (mut reads, mut puts) = (Tally::default(), Tally::default());
        for (b1, b2) in burst_sizes().filter(|(b1, b2)| b1 * b2 > t) {
            for plan in small_plans(&mut harness.rng, [b1, b2, t]) {
                let Written { plan, sheet, .. } = harness.written(plan);
                for cells in every_denser_burst(&plan) {
                    let scan = turned(&plan, &sheet, &cells);
                    let answer = read_by_all(&mut harness, &plan, &scan);
                    let told = Answer::unpack(answer);
                    assert!(told.is_refusal() || (1..=t as u64).contains(&told.cells), "{told:?}");
                    reads.count(answer);
                    let (put, left) = harness.put(&plan, &sheet, smallest_rectangle(&cells).pack());
                    assert!(put == 22 && left == sheet, "{cells:?} under {plan:?}");
                    puts.count(put);
                }
            }
        }
        reads.require(&format!("one cell more than {t}"), &[(0..=0, 100), (14..=14, 2000)]);
        puts.require("put back", &[(22..=22, 2000)]);
    }
}

/// Full bursts of the rectangle and random ones, of more cells by any number.
#[test]
fn much_denser_bursts() {
    let mut harness = Harness::new(223);
    let mut tally = Tally::default();
    for (b1, b2) in burst_sizes().filter(|(b1, b2)| b1 * b2 > 2) {
        for t in [1, 2] {
            for plan in small_plans(&mut harness.rng, [b1, b2, t]) {
                let Written { plan, sheet, .. } = harness.written(plan);
                for _ in 0..20 {
                    let rng = &mut harness.rng;
                    let (top, left) = (rng.below(plan.n1 - b1 + 1), rng.below(plan.n2 - b2 + 1));
                    let pattern = if rng.one_in(4) { u32::MAX } else { rng.bits(b1 * b2) };
                    let scan = turned(&plan, &sheet, &burst(&plan, top, left, pattern));
                    tally.count(read_by_all(&mut harness, &plan, &scan));
                    let scan = random_sheet(&plan, &mut harness.rng);
                    tally.count(read_by_all(&mut harness, &plan, &scan));
                }
            }
        }
    }
    tally.require("bursts of any cells, and random sheets", &[(0..=0, 100), (14..=14, 1000)]);
}

/// Every sheet of the smallest plans by every reader. Each of the 2^k written sheets is taken as it is and
/// with each burst that is not empty: under S 9 cells, whatever t is; of one cell 8 under T, and 6 with
/// bursts of two rows. All others are refused.
#[test]
fn every_sheet_of_the_smallest_plans() {
    let mut harness = Harness::new(224);
    for (plan, t, taken) in [
        (plan_s(), 1, 32 * (1 + 9)),
        (plan_s(), 2, 32 * (1 + 9)),
        (plan_t(), 1, 4 * (1 + 8)),
        (plan_t(), 2, 4 * (1 + 8 + 6)),
        (plan_two_rows(), 1, 2 * (1 + 6)),
        (plan_two_rows(), 2, 2 * (1 + 6 + 4)),
    ] {
        let plan = with_t(&plan, t);
        let mut tally = Tally::default();
        for sheet in every_sheet(&plan) {
            tally.count(read_by_all(&mut harness, &plan, &sheet));
        }
        tally.require("every sheet", &[]);
        assert_eq!([tally.met(0), tally.met(14)], [taken, (1 << (plan.n1 * plan.n2)) - taken]);
    }
}

/// The same of small plans with as few digits as can be filled, of at most 12 cells.
#[test]
fn every_sheet_of_tight_plans() {
    let mut harness = Harness::new(225);
    let (mut tally, mut plans) = (Tally::default(), 0);
    for (b1, b2) in burst_sizes().filter(|(b1, b2)| b1 * b2 > 1 && b1 * b2 <= 6) {
        for t in [1, 2] {
            for _ in 0..12 {
                let rng = &mut harness.rng;
                let sizes = [b1 + rng.below(3), b2 + rng.below(3), b1, b2];
                let small = sizes[0] * sizes[1] <= 12;
                let Some(plan) = tight(rng, sizes, t).filter(|_| small) else { continue };
                let bursts: std::collections::BTreeSet<_> = every_burst(&plan).collect();
                let mut of_plan = Tally::default();
                for sheet in every_sheet(&plan) {
                    of_plan.count(read_by_all(&mut harness, &plan, &sheet));
                }
                // At most one burst fits: each takes one written sheet to one that is taken.
                assert_eq!(of_plan.met(0), (bursts.len() as u64) << plan.data_bits());
                tally.add(&of_plan);
                plans += 1;
            }
        }
    }
    println!("every sheet of {plans} tight plans");
    assert!(plans >= 20);
    tally.require("their sheets", &[(0..=0, 1000), (14..=14, 1000)]);
}

/// Every pair of sheets of T and of the plan with bursts of two rows, with t of 1, by two heads.
#[test]
fn every_pair_of_sheets() {
    let mut harness = Harness::new(226);
    let mut tally = Tally::default();
    for plan in [plan_t(), plan_two_rows()].map(|plan| with_t(&plan, 1)) {
        let sheets: Vec<_> = every_sheet(&plan).collect();
        for first in &sheets {
            for second in &sheets {
                tally.count(harness.both_read(&plan, first, second).0);
                let row = harness.differing_row(&plan, first, second);
                assert_eq!(row.is_empty(), first == second);
            }
        }
    }
    tally.require("two scans, t 1", &[(0..=0, 10_000), (14..=14, 10_000), (19..=19, 500)]);
}

/// Putting back: the answers of all bursts of T and others for t of 0 are taken for t of 1 and 2 if they
/// tell of so few cells; else they are 22, and nothing changes.
#[test]
fn answers_of_denser_plans() {
    let mut harness = Harness::new(227);
    let mut tally = Tally::default();
    let mut plans = vec![plan_t(), plan_two_rows()];
    plans.extend(
        [[2, 2], [2, 3], [3, 2], [3, 3]]
            .map(|[b1, b2]| accepted_with(&mut harness.rng, [b1, b2, 0], 4)),
    );
    for plan in plans {
        for t in [1, 2] {
            let few = with_t(&plan, t);
            for answer in every_answer(&plan) {
                let sheet = random_sheet(&few, &mut harness.rng);
                let (told, left) = harness.put(&few, &sheet, answer);
                let cells = Answer::unpack(answer).cells;
                assert_eq!(told, if cells <= t as u64 { 0 } else { 22 }, "{cells} cells, t {t}");
                assert!(told == 0 || left == sheet);
                tally.count(told);
            }
        }
    }
    tally.require("answers of bursts of any cells", &[(0..=0, 500), (22..=22, 5000)]);
}

/// Written sheets: sums 0, and with a burst those of its cells; every data bit altered and altered back;
/// written and turned by columns; in stacks, each sheet as if it were alone.
#[test]
fn other_calls() {
    let mut harness = Harness::new(228);
    let (mut alterations, mut of_stacks) = (0, Tally::default());
    for (b1, b2) in burst_sizes() {
        for t in [1, 2] {
            for plan in small_plans(&mut harness.rng, [b1, b2, t]) {
                let Written { plan, sheet, data, .. } = harness.written(plan);
                assert_eq!(harness.run_sums(&plan, &sheet, whole(&plan)), (0, 0));
                let cells = check_burst(&plan, &mut harness.rng);
                assert!(!cells.is_empty() && cells.len() <= t);
                let scan = turned(&plan, &sheet, &cells);
                let sums = harness.run_sums(&plan, &scan, whole(&plan));
                assert!(sums == sums_of(&plan, &cells) && sums != (0, 0));
                for position in every_position(&plan) {
                    let (answer, left) = harness.altered(&plan, &sheet, position);
                    assert_eq!(
                        (answer, harness.altered(&plan, &left, position).1),
                        (0, sheet.clone())
                    );
                    assert_eq!(harness.altered(&plan, &scan, position).0, 18);
                    alterations += 1;
                }
                let (answer, columns) = harness.written_by_column(&plan, &data);
                assert_eq!((answer, &columns), (0, &model::by_columns(&plan, &sheet)));
                assert_eq!(
                    harness.turned_from(Layout::Columns, &plan, &columns),
                    (0, sheet.clone())
                );
                assert_eq!(harness.turned_from(Layout::Rows, &plan, &sheet), (0, columns));
                let rooms = random_rooms(16, &mut harness.rng);
                let lent = Lent::random(&plan, &rooms, &mut harness.rng);
                let (answer, left) = harness.stack_read(&plan, &lent);
                assert_eq!(answer, 0);
                (0..16).for_each(|at| of_stacks.count(told_of(&left.numbers, at).pack()));
            }
        }
    }
    println!("{alterations} alterations");
    assert!(alterations >= 1000);
    of_stacks.require("sheets of stacks", &[(0..=0, 300), (13..=14, 100)]);
}

/// The bursts that are tried at full size: as many cells as may be in each corner, at the edges and amid,
/// random ones, and single cells.
fn bursts_of(plan: &Plan, rng: &mut Rng) -> Vec<Vec<Cell>> {
    let (last_row, last_column) = (plan.n1 - 1, plan.n2 - 1);
    let mut bursts = edge_bursts(plan);
    bursts.extend(
        [(0, 0), (0, last_column), (last_row, 0), (last_row, last_column)].map(|at| vec![at]),
    );
    bursts.extend((0..30).map(|_| random_burst(plan, rng)));
    bursts
}

/// 512 × 698 cells, bursts of at most one cell or two of 4 × 4, with tables of powers and others: written,
/// mended by every reader but the trial, altered, put back; denser bursts as the model says.
#[test]
fn full_size() {
    let mut harness = Harness::new(229);
    let rng = &mut harness.rng;
    let full = [512, 698];
    let plans = [
        few_of_4x4(full, 1, CellOrder::Scattered, rng),
        few_of_4x4(full, 2, CellOrder::Sheet, rng),
        reversed_4x4(full, 2, CellOrder::Scattered, rng),
    ];
    let (mut bursts, mut denser) = (0, Tally::default());
    for plan in plans {
        let written = harness.written_accepted(plan);
        let Written { plan, sheet, .. } = &written;
        for cells in bursts_of(plan, &mut harness.rng) {
            harness.mends(&written, &cells);
            harness.mends_in(Layout::Columns, &written, &cells);
            bursts += 1;
        }
        for cells in bursts_of(plan, &mut harness.rng).into_iter().step_by(6) {
            let scan = turned(plan, sheet, &cells);
            let answer = harness.restores(plan, &scan, false);
            assert_eq!(answer, smallest_rectangle(&cells).pack());
            let (answer, data) =
                harness.both_read(plan, &scan, &turned(plan, sheet, &full_burst(plan, 255, 300)));
            assert!(answer == 0 && data == written.data);
        }
        for cells in denser_bursts_at(plan, 508, 694).into_iter().step_by(5) {
            let scan = turned(plan, sheet, &cells);
            denser.count(harness.columns_read(plan, &model::by_columns(plan, &scan)).0);
        }
        for position in [0, 697, plan.data_bits() as u32 - 1] {
            assert_eq!(harness.altered(plan, sheet, position).0, 0);
        }
    }
    println!("{bursts} bursts at full size");
    assert_eq!(bursts, 3 * 43);
    denser.require("at full size, one cell too many", &[(14..=14, 100)]);
}

/// By trial at full size, where the call has no limit: a burst in the first rectangle, and in some later
/// ones. To try all takes long.
#[test]
fn trial_at_full_size() {
    let mut harness = Harness::new(230);
    for t in [1, 2] {
        let plan = few_of_4x4([512, 698], t, CellOrder::Sheet, &mut harness.rng);
        let Written { plan, sheet, data, .. } = harness.written_accepted(plan);
        for (top, left) in [(0, 0), (0, 600), (2, 5)] {
            let cells = full_burst(&plan, top, left);
            let scan = turned(&plan, &sheet, &cells);
            let (answer, rest) = harness.trial_read_of_large(&plan, &scan);
            assert_eq!(answer, smallest_rectangle(&cells).pack());
            assert!(rest == [sheet.clone(), data.clone()], "{cells:?}");
        }
    }
}

//! sheet_alter by the thousands, beside the model: every position of small plans, looked at cell by cell and
//! read back; sheets with one cell wrong; runs of alterations beside a fresh write; full size.

use sheet_tests::compared::{house_by_call, Harness, Written};
use sheet_tests::make::{
    accepted, burst_sizes, largest_4x4, powers_1x1, powers_3x3, wide_3x3, CellOrder,
};
use sheet_tests::model::{self, altered_data};
use sheet_tests::plan::Plan;
use sheet_tests::positions::{beyond, cell_of, differing_data_cells, every_position};
use sheet_tests::rng::Rng;
use sheet_tests::scans::{random_burst, random_sheet, turned};

/// Alter the sheet at this position, as the model does, and look at what is left: of the cells that are not
/// check cells that of the position alone is turned over; the sheet is read with nothing to mend, as the
/// altered data; and the same alteration again restores every byte.
fn alters(harness: &mut Harness, written: &Written, position: u32) {
    let Written { plan, bytes, data, sheet } = written;
    let (answer, left) = harness.altered(plan, sheet, position);
    assert_eq!(answer, 0, "position {position} under {plan:?}");
    let turned_over = differing_data_cells(plan, sheet, &left);
    assert_eq!(turned_over, [cell_of(plan, position)], "position {position} under {plan:?}");

    let (mut scan, mut read) = (left.clone(), harness.rng.bytes(data.len()));
    assert_eq!(harness.library.read(bytes, &mut scan, &mut read), 0, "something is mended");
    assert!(scan == left && read == altered_data(data, position), "{position} under {plan:?}");

    let mut back = left;
    assert_eq!(harness.library.alter(bytes, &mut back, position), 0);
    assert!(back == *sheet, "position {position} twice under {plan:?}");
}

/// Every position of small plans of every burst size.
#[test]
fn every_position_of_small_plans() {
    let mut harness = Harness::new(71);
    let (mut alterations, mut without) = (0, 0);
    for (b1, b2) in burst_sizes() {
        for _ in 0..24 {
            let plan = accepted(&mut harness.rng, b1, b2, 12);
            let written = harness.written(plan);
            let positions = every_position(&written.plan);
            without += usize::from(positions.is_empty());
            for position in positions {
                alters(&mut harness, &written, position);
                alterations += 1;
            }
        }
    }
    println!("{alterations} alterations under small plans; {without} plans without data");
    assert!(alterations >= 10_000 && without >= 3);
}

/// Rows of every length modulo 64, check cells in sheet order, scattered, and in odd rows alone. Of some
/// rows every cell is a check cell: no position is there.
#[test]
fn rows_of_every_length() {
    let mut harness = Harness::new(72);
    let (mut full_rows, mut alterations) = (0, 0);
    for n2 in 7..=75 {
        for order in [CellOrder::Sheet, CellOrder::Scattered, CellOrder::OddRows] {
            let plan = powers_3x3(12, n2, order, &mut harness.rng);
            let in_row = |row| plan.checks.iter().filter(|&&(i, _)| i == row).count();
            full_rows += (0..12).filter(|&row| in_row(row) == n2).count();
            let written = harness.written(plan);
            let k = written.plan.data_bits();
            for position in [0, k / 2, k - 1, harness.rng.below(k), harness.rng.below(k)] {
                alters(&mut harness, &written, position as u32);
                alterations += 1;
            }
        }
    }
    println!("{alterations} alterations, {full_rows} rows of check cells alone");
    assert!(alterations >= 1000 && full_rows >= 10);
}

/// A written sheet with one cell wrong, each in turn, or with a burst: 18. A random sheet is turned back
/// unless it belongs.
#[test]
fn sheets_that_do_not_belong() {
    let mut harness = Harness::new(73);
    let (mut one_cell, mut others) = (0, 0);
    for (b1, b2) in burst_sizes() {
        for _ in 0..6 {
            let plan = accepted(&mut harness.rng, b1, b2, 6);
            let Written { plan, sheet, .. } = harness.written(plan);
            if plan.data_bits() == 0 {
                continue;
            }
            for cell in model::cells(&plan) {
                let position = harness.rng.below(plan.data_bits()) as u32;
                let (answer, _) = harness.altered(&plan, &turned(&plan, &sheet, &[cell]), position);
                assert_eq!(answer, 18, "{cell:?} wrong under {plan:?}");
                one_cell += 1;
            }
            for _ in 0..20 {
                let burst = random_burst(&plan, &mut harness.rng);
                let blotted = turned(&plan, &sheet, &burst);
                let position = harness.rng.below(plan.data_bits()) as u32;
                let (answer, _) = harness.altered(&plan, &blotted, position);
                assert_eq!(answer == 18, !burst.is_empty(), "{burst:?} under {plan:?}");
                let random = random_sheet(&plan, &mut harness.rng);
                let (answer, _) = harness.altered(&plan, &random, position);
                assert_eq!(answer == 18, model::syndrome(&plan, &random) != 0, "{plan:?}");
                others += 2;
            }
        }
    }
    println!("{one_cell} sheets with one cell wrong, {others} with a burst or random");
    assert!(one_cell >= 2000 && others >= 2000);
}

/// Sheets of which one bit of one sum alone is 1, each in turn: 18. Check cells turned over bring it
/// about. Entries have up to 32 bits.
#[test]
fn each_bit_of_the_sums() {
    let mut harness = Harness::new(77);
    let mut plans = vec![wide_3x3(CellOrder::Scattered, &mut harness.rng)];
    plans.extend(burst_sizes().map(|(b1, b2)| accepted(&mut harness.rng, b1, b2, 12)));
    let mut sheets = 0;
    for plan in plans.into_iter().filter(|plan| plan.data_bits() > 0) {
        let Written { plan, sheet, .. } = harness.written_accepted(plan);
        let checks: Vec<_> = plan.checks.iter().map(|&(i, j)| (i.into(), j.into())).collect();
        for bit in 0..plan.rv + plan.rh {
            let joint = checks.iter().map(|&(i, j)| plan.joint(i, j));
            let taken = model::solve(joint, 1 << bit).expect("the check cells span");
            let cells = checks.iter().enumerate().filter(|(index, _)| taken >> index & 1 == 1);
            let cells: Vec<_> = cells.map(|(_, &cell)| cell).collect();
            let position = harness.rng.below(plan.data_bits()) as u32;
            let (answer, _) = harness.altered(&plan, &turned(&plan, &sheet, &cells), position);
            assert_eq!(answer, 18, "bit {bit} under {plan:?}");
            sheets += 1;
        }
    }
    println!("{sheets} sheets with one bit of one sum");
    assert!(sheets >= 300);
}

/// So many positions below k, some of them more than once.
fn random_run(plan: &Plan, count: usize, rng: &mut Rng) -> Vec<u32> {
    let mut run = Vec::new();
    for _ in 0..count {
        let again = !run.is_empty() && rng.one_in(3);
        run.push(if again { rng.pick(&run) } else { rng.below(plan.data_bits()) as u32 });
    }
    run
}

/// Make these alterations by the library, one on what the other left, with a refusal now and then: a
/// position beyond k, which changes nothing.
fn after_run(harness: &mut Harness, written: &Written, run: &[u32]) -> Vec<u8> {
    let Written { plan, bytes, sheet, .. } = written;
    let mut left = sheet.clone();
    for &position in run {
        assert_eq!(harness.library.alter(bytes, &mut left, position), 0);
        if harness.rng.one_in(8) {
            let past = harness.rng.pick(&beyond(plan));
            assert_eq!(harness.library.alter(bytes, &mut left, past), 17);
        }
    }
    left
}

/// A run of alterations, in three orders: each leaves the sheet that the library writes from the data
/// altered at each position, and the model too. The same run once more, in another order, restores it.
fn alters_by_runs(harness: &mut Harness, written: &Written, mut run: Vec<u32>) {
    let Written { plan, bytes, data, sheet } = written;
    let altered = run.iter().fold(data.clone(), |data, &position| altered_data(&data, position));
    let mut fresh = harness.rng.bytes(sheet.len());
    assert_eq!(harness.library.write(bytes, &altered, &mut fresh), 0);
    assert!(fresh == model::write_sheet(plan, &altered));
    for _ in 0..3 {
        assert!(after_run(harness, written, &run) == fresh, "{run:?} under {plan:?}");
        harness.rng.shuffle(&mut run);
    }
    let mut again = run.clone();
    harness.rng.shuffle(&mut again);
    run.extend(again);
    assert!(after_run(harness, written, &run) == *sheet, "{run:?} twice under {plan:?}");
}

/// Runs of hundreds of alterations under small plans, and the whole data altered bit by bit.
#[test]
fn runs_of_alterations() {
    let mut harness = Harness::new(74);
    let (mut runs, mut alterations) = (0, 0);
    for (b1, b2) in burst_sizes() {
        for _ in 0..8 {
            let plan = accepted(&mut harness.rng, b1, b2, 12);
            let written = harness.written(plan);
            if written.plan.data_bits() == 0 {
                continue;
            }
            let count = harness.rng.within(1, 400);
            let random = random_run(&written.plan, count, &mut harness.rng);
            for run in [random, every_position(&written.plan)] {
                runs += 1;
                alterations += 5 * run.len();
                alters_by_runs(&mut harness, &written, run);
            }
        }
    }
    println!("{runs} runs of alterations, {alterations} in all");
    assert!(runs >= 150 && alterations >= 100_000);
}

/// Full size, with 20 to 64 check cells, and the house plan: the first and last positions, those about the
/// ends of the first rows, about 2^16 and 2^18, and others; then a run of alterations.
#[test]
fn full_size() {
    let mut harness = Harness::new(75);
    let rng = &mut harness.rng;
    for plan in [
        house_by_call(),
        powers_1x1(CellOrder::Scattered, rng),
        wide_3x3(CellOrder::Scattered, rng),
        largest_4x4(CellOrder::Scattered, rng),
    ] {
        let written = harness.written_accepted(plan);
        let (k, n2) = (written.plan.data_bits() as u32, written.plan.n2 as u32);
        let some = [0, 1, n2 - 37, n2 - 36, 2 * n2, (1 << 16) - 1, 1 << 16, 1 << 17, k / 2];
        let high = [1 << 18, (1 << 18) + n2, k - 2, k - 1].into_iter().filter(|&at| at < k);
        for position in some.into_iter().chain(high) {
            alters(&mut harness, &written, position);
        }
        let run = random_run(&written.plan, 12, &mut harness.rng);
        alters_by_runs(&mut harness, &written, run);
    }
}

/// Full size: one cell wrong, near the first corner and the last, gives 18; positions beyond give 17.
#[test]
fn full_size_refusals() {
    let mut harness = Harness::new(76);
    let Written { plan, sheet, .. } = harness.written_accepted(house_by_call());
    for cell in [(0, 0), (0, 697), (1, 697), (255, 300), (511, 0), (511, 697)] {
        let wrong = turned(&plan, &sheet, &[cell]);
        assert_eq!(harness.altered(&plan, &wrong, 0).0, 18, "{cell:?}");
        assert_eq!(harness.altered(&plan, &wrong, u32::MAX).0, 17, "{cell:?}");
    }
    for position in beyond(&plan) {
        assert_eq!(harness.altered(&plan, &sheet, position).0, 17, "{position}");
    }
}

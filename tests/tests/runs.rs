//! sheet_sums on thousands of runs, beside the model: every run of the smallest plans, runs about the edges,
//! full size; runs that join; written sheets and bursts on them.

use sheet_tests::cases::{plan_s, plan_t, plan_two_rows};
use sheet_tests::compared::{house_by_call, Harness, Written};
use sheet_tests::make::{
    accepted, burst_sizes, largest_4x4, powers_1x1, powers_3x3, wide_3x3, CellOrder,
};
use sheet_tests::plan::Plan;
use sheet_tests::runs::{edges, joined, random_end, random_run, sums_of, whole};
use sheet_tests::scans::{dark_sheet, every_sheet, random_burst, random_sheet, turned};

/// Every sheet of S, of T and of a small plan with bursts of two rows, and every run with ends up to two
/// rows past it. Of these sheets, those with both sums 0 are read with nothing to mend, and no others.
#[test]
fn every_run_of_the_smallest_plans() {
    let mut harness = Harness::new(43);
    let mut runs = 0;
    for plan in [plan_s(), plan_t(), plan_two_rows()] {
        let ends = 0..plan.n1 as u32 + 3;
        let mut belonging = 0;
        for sheet in every_sheet(&plan) {
            for first in ends.clone() {
                for past in ends.clone() {
                    harness.run_sums(&plan, &sheet, first..past);
                    runs += 1;
                }
            }
            belonging += usize::from(belongs(&mut harness, &plan, &sheet));
        }
        assert_eq!(belonging, 1 << plan.data_bits());
    }
    println!("{runs} runs of the smallest plans");
    assert!(runs >= 25_000);
}

/// Are both sums of the sheet 0? If so, and only then, the library reads it and has nothing to mend.
fn belongs(harness: &mut Harness, plan: &Plan, sheet: &[u8]) -> bool {
    let zero = harness.run_sums(plan, sheet, whole(plan)) == (0, 0);
    let read = harness.read(&plan.encode(), sheet, plan.data_len());
    assert_eq!(zero, read == 0, "{sheet:x?} under {plan:?}");
    zero
}

/// Random sheets of small plans, of every burst size: every pair of edges, and random runs.
#[test]
fn runs_of_small_plans() {
    let mut harness = Harness::new(44);
    let (mut runs, mut empty, mut beyond) = (0, 0, 0);
    for (b1, b2) in burst_sizes() {
        for _ in 0..12 {
            let plan = accepted(&mut harness.rng, b1, b2, 12);
            let sheet = random_sheet(&plan, &mut harness.rng);
            let edges = edges(&plan);
            let pairs = edges.iter().flat_map(|&first| edges.iter().map(move |&past| first..past));
            let random = (0..60).map(|_| random_run(&plan, &mut harness.rng));
            for run in random.chain(pairs).collect::<Vec<_>>() {
                runs += 1;
                empty += usize::from(run.is_empty());
                beyond += usize::from(!run.is_empty() && run.end as usize > plan.n1);
                harness.run_sums(&plan, &sheet, run);
            }
        }
    }
    println!("{runs} runs of small plans, {empty} of them empty, {beyond} that go past the sheet");
    assert!(runs >= 30_000 && empty >= 10_000 && beyond >= 10_000);
}

/// Rows of every length modulo 64, with runs that begin at every row modulo b1.
#[test]
fn rows_of_every_length() {
    let mut harness = Harness::new(45);
    for n2 in 7..=140 {
        let plan = powers_3x3(11, n2, CellOrder::Sheet, &mut harness.rng);
        let sheet = random_sheet(&plan, &mut harness.rng);
        for first in 0..4 {
            harness.run_sums(&plan, &sheet, first..11);
        }
        harness.run_sums(&plan, &vec![0; plan.sheet_len()], whole(&plan));
    }
}

/// Full size, with entries of 10 to 32 bits, and the house plan: every pair of edges for that, random runs
/// for all. Sheets are random, and one is dark in every cell.
#[test]
fn full_size() {
    let mut harness = Harness::new(46);
    let rng = &mut harness.rng;
    let house = house_by_call();
    for plan in [
        powers_1x1(CellOrder::Scattered, rng),
        powers_3x3(512, 698, CellOrder::Scattered, rng),
        wide_3x3(CellOrder::Sheet, rng),
        largest_4x4(CellOrder::Scattered, rng),
        house.clone(),
    ] {
        for sheet in [random_sheet(&plan, &mut harness.rng), dark_sheet(&plan)] {
            harness.run_sums(&plan, &sheet, whole(&plan));
            for _ in 0..20 {
                let run = random_run(&plan, &mut harness.rng);
                harness.run_sums(&plan, &sheet, run);
            }
        }
    }
    let sheet = random_sheet(&house, &mut harness.rng);
    for first in edges(&house) {
        for past in edges(&house) {
            harness.run_sums(&house, &sheet, first..past);
        }
    }
}

/// A run cut anywhere: the sums of its pieces, joined, are its own.
#[test]
fn runs_join() {
    let mut harness = Harness::new(47);
    let mut plans = vec![house_by_call()];
    for (b1, b2) in burst_sizes() {
        plans.extend((0..10).map(|_| accepted(&mut harness.rng, b1, b2, 12)));
    }
    let mut pieces = 0;
    for plan in plans {
        for _ in 0..10 {
            let sheet = random_sheet(&plan, &mut harness.rng);
            let rng = &mut harness.rng;
            let mut cuts: Vec<_> = (0..rng.within(2, 9)).map(|_| random_end(&plan, rng)).collect();
            cuts.sort();
            let mut sums = (0, 0);
            for cut in cuts.windows(2) {
                sums = joined(sums, harness.run_sums(&plan, &sheet, cut[0]..cut[1]));
                pieces += 1;
            }
            let all = cuts[0]..cuts[cuts.len() - 1];
            assert_eq!(sums, harness.run_sums(&plan, &sheet, all), "{cuts:?} under {plan:?}");
        }
    }
    println!("{pieces} runs joined");
    assert!(pieces >= 5000);
}

/// Every row alone; all of them joined are the sheet.
#[test]
fn single_rows_join() {
    let mut harness = Harness::new(48);
    let mut plans = vec![house_by_call()];
    plans.extend(burst_sizes().map(|(b1, b2)| accepted(&mut harness.rng, b1, b2, 30)));
    for plan in plans {
        let sheet = random_sheet(&plan, &mut harness.rng);
        let row = |i| harness.run_sums(&plan, &sheet, i..i + 1);
        let rows = whole(&plan).map(row).fold((0, 0), joined);
        assert_eq!(rows, harness.run_sums(&plan, &sheet, whole(&plan)), "{plan:?}");
    }
}

/// A written sheet has sums 0 and 0. With a burst on it, which the reader mends, it has those of the
/// burst's cells alone: not both 0 unless the burst is empty. A run that has none of the burst's rows has
/// the sums that it had.
#[test]
fn written_sheets_and_bursts() {
    let mut harness = Harness::new(49);
    let mut plans = vec![house_by_call(), wide_3x3(CellOrder::Scattered, &mut harness.rng)];
    for (b1, b2) in burst_sizes() {
        plans.extend((0..10).map(|_| accepted(&mut harness.rng, b1, b2, 12)));
    }
    let mut bursts = 0;
    for plan in plans {
        let written = harness.written(plan);
        let Written { plan, sheet, .. } = &written;
        assert_eq!(harness.run_sums(plan, sheet, whole(plan)), (0, 0));
        for _ in 0..10 {
            let cells = random_burst(plan, &mut harness.rng);
            let scan = turned(plan, sheet, &cells);
            let sums = harness.run_sums(plan, &scan, whole(plan));
            assert_eq!(sums, sums_of(plan, &cells), "{cells:?} under {plan:?}");
            assert_eq!(sums == (0, 0), cells.is_empty(), "{cells:?} under {plan:?}");
            harness.mends(&written, &cells);
            let (Some(&(top, _)), Some(&(bottom, _))) = (cells.first(), cells.last()) else {
                continue;
            };
            for run in [0..top as u32, bottom as u32 + 1..u32::MAX] {
                let before = harness.run_sums(plan, sheet, run.clone());
                assert_eq!(harness.run_sums(plan, &scan, run), before);
            }
            bursts += 1;
        }
    }
    println!("{bursts} bursts summed");
    assert!(bursts >= 1000);
}

/// Both sums are 0 exactly where a sheet belongs: written sheets, such with one burst or two on them, and
/// random ones.
#[test]
fn sheets_that_belong() {
    let mut harness = Harness::new(50);
    let (mut belonging, mut others) = (0, 0);
    for (b1, b2) in burst_sizes() {
        for _ in 0..20 {
            let plan = accepted(&mut harness.rng, b1, b2, 8);
            let Written { plan, sheet, .. } = harness.written(plan);
            let one = turned(&plan, &sheet, &random_burst(&plan, &mut harness.rng));
            let two = turned(&plan, &one, &random_burst(&plan, &mut harness.rng));
            for sheet in [sheet, one, two, random_sheet(&plan, &mut harness.rng)] {
                if belongs(&mut harness, &plan, &sheet) {
                    belonging += 1;
                } else {
                    others += 1;
                }
            }
        }
    }
    println!("{belonging} sheets that belong, {others} others");
    assert!(belonging >= 300 && others >= 300);
}

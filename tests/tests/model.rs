//! The model tested by itself: against the worked cases of 01 and against the bare definitions.
//! Nothing here calls the library (`cargo test --no-default-features --test model`).

use std::collections::BTreeSet;

use sheet_tests::answer::Answer;
use sheet_tests::cases::{plan_cases, plan_s, plan_t, read_cases, write_cases};
use sheet_tests::given::{altered, random_given, HOUSE};
use sheet_tests::line::{line, INPUT_LIMIT};
use sheet_tests::make::{
    accepted, burst_sizes, largest_4x4, no_data, powers, powers_3x3, reversed_3x3, CellOrder,
    Polynomial,
};
use sheet_tests::model;
use sheet_tests::plan::Plan;
use sheet_tests::rng::Rng;
use sheet_tests::scans::{every_burst, random_burst, random_data, turned};
use sheet_tests::yardstick;

#[test]
fn worked_plans() {
    assert_eq!(plan_s().layout(), [22, 34, 46, 62]);
    assert_eq!(plan_t().layout(), [22, 38, 54, 78]);
    for (bytes, expected) in plan_cases() {
        assert_eq!(model::test_plan(&bytes).places(), expected);
    }
}

#[test]
fn worked_sheets() {
    for (plan, data, expected) in write_cases() {
        let mut sheet = vec![0xaa; expected.len()];
        assert_eq!(model::write(&plan.encode(), &data, &mut sheet), Answer::default());
        assert_eq!(sheet, expected);
    }
    for (plan, mut sheet, expected) in read_cases() {
        let mut data = vec![0xaa];
        let answer = model::read(&plan.encode(), &mut sheet, &mut data);
        match expected {
            Some((numbers, mended, text)) => {
                assert_eq!((answer.number, answer.mended()), (0, numbers));
                assert_eq!((sheet, data), (mended, text));
            }
            None => assert_eq!(answer, Answer::refusal(14, 0, 0)),
        }
    }
}

/// 02 c): a data bit alone darkens the cell of its number, and of the other data cells none. Cells are
/// numbered row by row, in odd rows from the highest column down, check cells left out.
#[test]
fn odd_rows_run_down() {
    let mut rng = Rng::new(16);
    for (b1, b2) in burst_sizes() {
        let plan = accepted(&mut rng, b1, b2, 9);
        let mut cells = Vec::new();
        for i in 0..plan.n1 {
            let mut row: Vec<_> = (0..plan.n2).map(|j| (i, j)).collect();
            if i % 2 == 1 {
                row.reverse();
            }
            cells.extend(row);
        }
        cells.retain(|&(i, j)| !plan.checks.contains(&(i as u16, j as u16)));
        assert_eq!(cells.len(), plan.data_bits());
        for (bit, &cell) in cells.iter().enumerate() {
            let mut data = vec![0; plan.data_len()];
            data[bit / 8] = 1 << (bit % 8);
            let sheet = model::write_sheet(&plan, &data);
            let is_dark =
                |&(i, j): &(usize, usize)| sheet[i * plan.row_len() + j / 8] >> (j % 8) & 1 == 1;
            let dark: Vec<_> = cells.iter().copied().filter(is_dark).collect();
            assert_eq!(dark, [cell]);
        }
    }
}

/// The bytes of T with this t.
fn t_bytes(t: u8) -> Vec<u8> {
    Plan { t: t.into(), ..plan_t() }.encode()
}

/// Case 12, and each way in which the input can be cut into plan and sheet.
#[test]
fn printed_lines() {
    let t = plan_t().encode();
    let with = |tail: &[u8]| [&t[..], tail].concat();
    assert_eq!(line(&with(&[0x03, 0x05])), "ok 2 0 1 1 2 3 02");
    assert_eq!(line(&with(&[0x05, 0x05])), "ok 0 0 0 0 0 0 02");
    // With t of 1 a burst of two cells is none.
    let with_t = |t: u8, tail: [u8; 2]| [&t_bytes(t)[..], &tail].concat();
    assert_eq!(line(&with_t(1, [0x03, 0x05])), "no 14 0 0");
    assert_eq!(line(&with_t(1, [0x04, 0x05])), "ok 1 0 0 1 1 1 02");
    assert_eq!(line(&with_t(2, [0x03, 0x05])), "ok 2 0 1 1 2 3 02");
    assert_eq!(line(&with_t(3, [0x03, 0x05])), "no 23 0 0");
    assert_eq!(line(&with(&[0x0c, 0x05])), "no 14 0 0");
    assert_eq!(line(&with(&[0x0c, 0x15])), "no 13 1 0");
    assert_eq!(line(&with(&[0x03, 0x05, 0x00])), "no 11 0 0");
    assert_eq!(line(&t), "no 11 0 0");
    assert_eq!(line(&[]), "no 1 0 0");
    assert_eq!(line(&t[..21]), "no 1 0 0");
    assert_eq!(line(&t[..77]), "no 5 0 0");
    // A length field below 22: the plan is 22 bytes all the same.
    assert_eq!(line(&[[0; 22].as_slice(), &[1]].concat()), "no 2 0 0");
    assert_eq!(line(&with(&vec![0; INPUT_LIMIT])), "no 11 0 0");
    assert_eq!(line(&[no_data().encode(), vec![0x02]].concat()), "ok 1 0 1 1 1 1");
    // More than one byte of data stands in one field.
    let plan = powers_3x3(9, 9, CellOrder::Sheet, &mut Rng::new(1));
    assert_eq!(line(&[plan.encode(), vec![0; 18]].concat()), "ok 0 0 0 0 0 0 000000000000");
}

/// docs/ANSWER.md gives the layout as an expression too.
#[test]
fn packed_answers() {
    let mut rng = Rng::new(2);
    for _ in 0..1000 {
        let [p, q, cells, top, left, height, width, pattern] =
            [16, 12, 5, 9, 10, 3, 3, 16].map(|bits| u64::from(rng.bits(bits)));
        let number = rng.within(1, 31) as u64;
        let refusal = Answer { number, p, q, ..Answer::default() };
        let success = Answer { cells, top, left, height, width, pattern, ..Answer::default() };
        let sizes = left + (1 << 10) * (height + (1 << 3) * (width + (1 << 3) * pattern));
        let above = cells + (1 << 5) * (top + (1 << 9) * sizes);
        for (answer, packed) in
            [(refusal, number + (1 << 5) * (p + (1 << 16) * q)), (success, (1 << 5) * above)]
        {
            assert_eq!(answer.pack(), packed);
            assert_eq!(Answer::unpack(packed), answer);
            // Above the fields there are 31 bits of a refusal, and 13 of a success.
            let others = if answer.is_refusal() { 33..64 } else { 51..64 };
            let bit = rng.within(others.start, others.end - 1);
            assert_eq!(Answer::told_by(packed | 1 << bit), answer);
        }
    }
}

#[test]
fn plan_bytes_round_trip() {
    let mut rng = Rng::new(3);
    for (b1, b2) in burst_sizes() {
        let plan = accepted(&mut rng, b1, b2, 12);
        assert_eq!(Plan::parse(&plan.encode()), Ok(plan));
    }
}

/// Elimination against all subsets.
#[test]
fn independence_is_about_subsets() {
    let mut rng = Rng::new(4);
    let mut dependent = 0;
    for _ in 0..4000 {
        let (count, width) = (rng.within(0, 8), rng.within(1, 10));
        let vectors: Vec<u64> = (0..count).map(|_| rng.bits(width).into()).collect();
        let sum = |subset: u64| {
            let inside = vectors.iter().enumerate().filter(|(at, _)| subset >> at & 1 == 1);
            inside.fold(0, |sum, (_, vector)| sum ^ vector)
        };
        let none_is_zero = (1..1 << count).all(|subset| sum(subset) != 0);
        assert_eq!(model::independent(vectors.iter().copied()), none_is_zero);
        dependent += u32::from(!none_is_zero);

        let target = rng.bits(width).into();
        let found = model::solve(vectors.iter().copied(), target);
        assert_eq!(found.is_some(), (0..1 << count).any(|subset| sum(subset) == target));
        assert!(found.is_none_or(|subset| sum(subset) == target));
    }
    assert!((1000..3000).contains(&dependent), "{dependent} of 4000 were dependent");
}

/// Of all sheets, those that belong to the plan are the written ones, one for each string of data.
#[test]
fn one_written_sheet_for_each_data() {
    let mut rng = Rng::new(5);
    let mut plans = vec![plan_s(), plan_t()];
    for (b1, b2) in burst_sizes() {
        plans.extend((0..10).map(|_| accepted(&mut rng, b1, b2, 2)));
    }
    plans.retain(|plan| plan.n1 * plan.n2 <= 12);
    println!("{} plans", plans.len());
    assert!(plans.len() >= 60);
    for plan in plans {
        let cells: Vec<_> = (0..plan.n1 * plan.n2).map(|at| (at / plan.n2, at % plan.n2)).collect();
        let mut met = BTreeSet::new();
        for pattern in 0..1u32 << cells.len() {
            let dark = (0..cells.len()).filter(|at| pattern >> at & 1 == 1).map(|at| cells[at]);
            let sheet = turned(&plan, &vec![0; plan.sheet_len()], &dark.collect::<Vec<_>>());
            if model::syndrome(&plan, &sheet) == 0 {
                let data = model::data_of(&plan, &sheet);
                assert_eq!(model::write_sheet(&plan, &data), sheet);
                met.insert(data);
            }
        }
        assert_eq!(met.len(), 1 << plan.data_bits());
    }
}

/// The search by windows and strips against the trial of every rectangle and pattern.
#[test]
fn search_is_trial() {
    let mut rng = Rng::new(6);
    let (mut fits, mut fails) = (0, 0);
    for (b1, b2) in burst_sizes() {
        for _ in 0..20 {
            let plan = accepted(&mut rng, b1, b2, 4);
            for _ in 0..10 {
                let mut sheet = model::write_sheet(&plan, &random_data(&plan, &mut rng));
                for _ in 0..rng.within(0, 2) {
                    sheet = turned(&plan, &sheet, &random_burst(&plan, &mut rng));
                }
                let found = model::burst_by_search(&plan, &sheet);
                assert_eq!(found, model::burst_by_trial(&plan, &sheet));
                fits += u32::from(found.is_some());
                fails += u32::from(found.is_none());
            }
        }
    }
    println!("{fits} sheets with a burst that fits, {fails} without");
    assert!(fits > 1000 && fails > 500);
}

/// At most one burst, as a set of cells, fits: all bursts that are different have different
/// syndromes. This is what the three conditions are for.
#[test]
fn different_bursts_differ_in_syndrome() {
    let mut rng = Rng::new(7);
    for (b1, b2) in burst_sizes().filter(|(b1, b2)| b1 * b2 <= 9) {
        for _ in 0..10 {
            let plan = accepted(&mut rng, b1, b2, 4);
            let mut bursts = BTreeSet::new();
            let mut syndromes = BTreeSet::new();
            for cells in every_burst(&plan) {
                syndromes.insert(cells.iter().fold(0, |sum, &(i, j)| sum ^ plan.joint(i, j)));
                bursts.insert(cells);
            }
            assert_eq!(bursts.len(), syndromes.len());
        }
    }
}

/// Demand 3 in the model: each burst on a written sheet is mended, and told.
#[test]
fn bursts_are_mended() {
    let mut rng = Rng::new(8);
    for (b1, b2) in burst_sizes() {
        for _ in 0..40 {
            let plan = accepted(&mut rng, b1, b2, 8);
            let text = random_data(&plan, &mut rng);
            let sheet = model::write_sheet(&plan, &text);
            let burst = random_burst(&plan, &mut rng);
            let mut scan = turned(&plan, &sheet, &burst);
            let mut data = rng.bytes(text.len());
            let answer = model::read_accepted(&plan, &mut scan, &mut data);
            assert_eq!(answer, model::smallest_rectangle(&burst));
            assert_eq!((scan, data), (sheet, text));
        }
    }
}

/// z^k by long division is what shifting and reducing give, with any coefficients.
#[test]
fn powers_by_division() {
    let mut rng = Rng::new(11);
    for degree in 1..=32 {
        for _ in 0..20 {
            let low = rng.bits(degree);
            let by_division = (0..150).map(|k| model::power(k, degree, low));
            assert!(by_division.eq(powers(150, Polynomial { degree, low })), "{degree}, {low:#x}");
        }
    }
}

/// A made plan is accepted, and the Rust that the library is timed against makes the same plans and
/// gives the same answers.
#[test]
fn made_plans() {
    let mut rng = Rng::new(12);
    let (mut made, mut refused) = (0, 0);
    for (b1, b2) in burst_sizes() {
        for round in 0..200 {
            let good = random_given(&mut rng, b1, b2);
            let mut plan = rng.bytes(good.plan_len());
            let given = if round % 2 == 0 { good } else { altered(&good, &mut rng) };
            let held = plan.clone();
            let answer = model::make(&given, &mut plan);
            for make in [yardstick::plain_plan_make, yardstick::one_row_plan_make] {
                let mut other = held.clone();
                assert_eq!(make(&given, &mut other), answer.pack(), "{given:?}");
                assert!(other == plan, "{given:?}");
            }
            if answer.is_refusal() {
                refused += 1;
                assert!(plan == held);
            } else {
                made += 1;
                assert_eq!(model::test_plan(&plan), Answer::default(), "{given:?}");
            }
        }
    }
    println!("{made} plans made, {refused} refused");
    assert!(made > 400 && refused > 400);
}

/// The plan of full size from its two polynomials.
#[test]
fn full_size_plan_is_made() {
    let expected = powers_3x3(512, 698, CellOrder::Sheet, &mut Rng::new(13));
    assert_eq!(model::made_plan(&HOUSE, HOUSE.plan_len()), Ok(expected));
}

#[test]
fn full_size_plans_are_accepted() {
    let mut rng = Rng::new(10);
    for plan in [
        powers_3x3(512, 698, CellOrder::Sheet, &mut rng),
        reversed_3x3(512, 698, CellOrder::Scattered, &mut rng),
        largest_4x4(CellOrder::Scattered, &mut rng),
    ] {
        let bytes = plan.encode();
        assert_eq!(model::test_plan(&bytes), Answer::default());
        assert_eq!(yardstick::plain_plan_test(&bytes), 0);
        assert_eq!(yardstick::best_plan_test(&bytes), 0);
    }
}

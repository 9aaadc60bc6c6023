//! sheet_plan_make beside the model, case by case: the answer and every byte of the plan buffer. Every
//! plan that is made is tested, written under and read under.

use sheet_tests::answer::Answer;
use sheet_tests::compared::{told, Harness};
use sheet_tests::given::Given;
use sheet_tests::make::{Polynomial, H_3X3, V_3X3, WIDE};
use sheet_tests::plan::Plan;

fn refused(number: u64, p: usize, q: usize) -> Result<Plan, Answer> {
    Err(Answer::refusal(number, p, q))
}

/// z^2 + z + 1: its powers are 1, 2, 3, and 1 again.
const Z2_Z_1: Polynomial = Polynomial { degree: 2, low: 3 };
/// z + 1: all powers are 1.
const Z_1: Polynomial = Polynomial { degree: 1, low: 1 };
/// z^3 + 1: its powers are 1, 2, 4, and 1 again.
const Z3_1: Polynomial = Polynomial { degree: 3, low: 1 };

/// Bursts of one cell on n1 rows and n2 columns.
fn single(n1: u32, n2: u32, v: Polynomial, h: Polynomial) -> Given {
    Given::new([n1, n2, 1, 1], v, h)
}

/// A plan of nine cells that is made.
fn nine_cells() -> Given {
    single(3, 3, Z2_Z_1, Z2_Z_1)
}

/// Worked by hand. The joint entries of row 0 are 1 + 4 × 1, 2 and 3, of which none is made of the
/// others; the first of row 1 brings the second bit of V.
#[test]
fn worked_by_hand() {
    let plan = Harness::new(1).make_in_its_length(&nine_cells()).expect("it is made");
    assert_eq!((plan.v, plan.h), (vec![1, 2, 3], vec![1, 2, 3]));
    assert_eq!(plan.checks, [(0, 0), (0, 1), (0, 2), (1, 0)]);
}

#[test]
fn degree_1() {
    let mut harness = Harness::new(4);
    let v = harness.make_in_its_length(&single(1, 3, Z_1, Z2_Z_1)).expect("degree 1 for V");
    assert_eq!((v.v, v.h), (vec![1], vec![1, 2, 3]));
    let h = harness.make_in_its_length(&single(3, 1, Z2_Z_1, Z_1)).expect("degree 1 for H");
    assert_eq!((h.v, h.h), (vec![1, 2, 3], vec![1]));
    // Both: one cell, and two check cells asked for.
    assert_eq!(harness.make_in_its_length(&single(1, 1, Z_1, Z_1)), refused(16, 0, 0));
    assert_eq!(harness.make_in_its_length(&single(2, 1, Z_1, Z_1)), refused(8, 0, 1));
    assert_eq!(harness.make_in_its_length(&single(1, 2, Z_1, Z_1)), refused(9, 0, 1));
}

/// At degree 32 no coefficient is at or above the degree, and z times an entry needs 33 bits. With
/// all coefficients the powers come again after the 33rd.
#[test]
fn degree_32() {
    let mut harness = Harness::new(5);
    let all = Polynomial { degree: 32, low: u32::MAX };
    let plan = harness.make_in_its_length(&single(33, 33, all, all)).expect("33 are different");
    let entries: Vec<u32> = (0..32).map(|k| 1 << k).chain([u32::MAX]).collect();
    assert!(plan.v == entries && plan.h == entries);
    assert_eq!(harness.make_in_its_length(&single(34, 33, all, all)), refused(8, 0, 33));
    assert_eq!(harness.make_in_its_length(&single(33, 34, all, all)), refused(9, 0, 33));

    // z^32 + z^31 + z + 1 and z^32 + z + 1: digits are carried out at entries that are told by hand.
    let high = Polynomial { degree: 32, low: 0x8000_0003 };
    let odd = Polynomial { degree: 32, low: 3 };
    let plan = harness.make_in_its_length(&single(35, 35, high, odd)).expect("they differ");
    assert_eq!(plan.v[31..], [0x8000_0000, 0x8000_0003, 0x8000_0005, 0x8000_0009]);
    assert_eq!(plan.h[31..], [0x8000_0000, 3, 6, 12]);
    // One of the two tables alone has this degree.
    assert!(harness.make_in_its_length(&single(35, 3, high, Z2_Z_1)).is_ok());
    assert!(harness.make_in_its_length(&single(3, 35, Z2_Z_1, high)).is_ok());
}

#[test]
fn constant_term_0() {
    let mut harness = Harness::new(6);
    let good = nine_cells();
    for given in [
        Given { v_low: 2, ..good },
        Given { h_low: 2, ..good },
        Given { v_low: 0, ..good },
        Given { h_low: 0, ..good },
        Given { v_low: 2, h_low: 2, ..good },
        Given { rv: 32, v_low: u32::MAX - 1, ..good },
        Given { rh: 32, h_low: u32::MAX - 1, ..good },
    ] {
        assert_eq!(harness.make_in_its_length(&given), refused(15, 0, 0), "{given:?}");
    }
}

/// A coefficient at the degree, and each above it, in either polynomial at each degree. At degree 32
/// there is none.
#[test]
fn coefficient_at_or_above_the_degree() {
    let mut harness = Harness::new(7);
    let mut tried = 0;
    for degree in 1..=32 {
        for coefficient in 0..32 {
            let low = 1 | 1 << coefficient;
            for given in [
                Given { rv: degree, v_low: low, ..nine_cells() },
                Given { rh: degree, h_low: low, ..nine_cells() },
            ] {
                let number = told(&harness.make_in_its_length(&given)) & 31;
                assert_eq!(number == 15, coefficient >= degree, "{given:?}");
                tried += u32::from(coefficient >= degree);
            }
        }
    }
    assert_eq!(tried, 2 * (31 * 32 / 2));
}

/// As many check cells as cells can be made, and one more can't.
#[test]
fn more_check_cells_than_cells() {
    let mut harness = Harness::new(8);
    let plan = harness.make_in_its_length(&single(1, 3, Z_1, Z2_Z_1)).expect("three of three");
    assert_eq!((plan.data_bits(), plan.checks.len()), (0, 3));
    let z3_z_1 = Polynomial { degree: 3, low: 3 };
    assert_eq!(harness.make_in_its_length(&single(1, 3, Z_1, z3_z_1)), refused(16, 0, 0));
    assert_eq!(harness.make_in_its_length(&single(3, 1, z3_z_1, Z_1)), refused(16, 0, 0));
    assert!(harness.make_in_its_length(&single(1, 4, Z_1, z3_z_1)).is_ok());
}

/// Where V has as many entries as digits, nothing is reduced, and any polynomial makes 1, 2, 4, ..
#[test]
fn as_many_entries_as_digits() {
    let mut harness = Harness::new(10);
    for [n1, b1, b2] in [[2, 2, 2], [4, 2, 2], [3, 3, 3], [8, 4, 4], [32, 1, 1], [16, 1, 2]] {
        let degree = (n1 * b2) as usize;
        // For H the powers of CRC-32, whose number of terms is odd.
        let v = Polynomial { degree, low: harness.rng.bits(degree) | 1 };
        let plan = harness.make_in_its_length(&Given::new([n1, 60, b1, b2], v, WIDE));
        let plan = plan.unwrap_or_else(|refusal| panic!("{n1} rows, {b1} x {b2}: {refusal:?}"));
        assert!(plan.v.len() == plan.rv && plan.v.iter().enumerate().all(|(k, v)| *v == 1 << k));
    }
}

/// The two polynomials of full size serve from 8 rows and 7 columns on (docs/FORMAT.md). A larger sheet
/// has all the check cells of a smaller one.
#[test]
fn smallest_sheets_of_the_polynomials_of_full_size() {
    let mut harness = Harness::new(17);
    let mut make = |n1, n2| harness.make_in_its_length(&Given::new([n1, n2, 3, 3], V_3X3, H_3X3));
    assert!(make(8, 7).is_ok());
    assert_eq!(make(7, 698), refused(16, 0, 0));
    assert_eq!(make(8, 6), refused(16, 0, 0));
}

/// Each size at its limits and beyond them. The polynomials are turned back: 15 says that the sizes
/// are not.
#[test]
fn limits() {
    let mut harness = Harness::new(16);
    let good = Given { v_low: 0, ..Given::new([10, 10, 2, 3], WIDE, WIDE) };
    let sizes = [(0, 2, 512, 3), (1, 3, 698, 3), (2, 1, 4, 2), (3, 1, 4, 2)];
    let others = [(4, 0, 2, 23), (5, 1, 32, 4), (7, 1, 32, 4)];
    for (place, least, most, number) in sizes.into_iter().chain(others) {
        for value in (0..=most + 3).chain([255, 256, 65_535, 65_536 + least]) {
            let mut given = good;
            *given.numbers_mut()[place] = value;
            let within = (least..=most).contains(&value);
            let len = if within { given.plan_len() } else { good.plan_len() };
            let expected = if within { 15 } else { number };
            assert_eq!(harness.make(&given, len), refused(expected, 0, 0), "{given:?}");
        }
    }
}

/// Each number in its place beyond all limits, and such that its low bits would be good, in buffers
/// of several lengths.
#[test]
fn huge_numbers() {
    let mut harness = Harness::new(11);
    let good = nine_cells();
    let numbers = [3, 3, 2, 2, 23, 4, 15, 4, 15];
    for (place, number) in numbers.into_iter().enumerate() {
        // A t of 4 is too large.
        for bit in if place == 4 { 2..32 } else { 5..32 } {
            let mut low_bits_good = good;
            *low_bits_good.numbers_mut()[place] |= 1 << bit;
            let mut alone = good;
            *alone.numbers_mut()[place] = 1 << bit;
            let mut all_ones = good;
            *all_ones.numbers_mut()[place] = u32::MAX >> (31 - bit);
            for given in [low_bits_good, alone, all_ones] {
                // A polynomial is looked at after the length, and a size of 32 to 698 may be good.
                let in_limits = given.sizes().check_sizes().is_ok();
                let len = if in_limits { given.plan_len() } else { good.plan_len() };
                let answer = told(&harness.make(&given, len));
                assert!(answer == number || in_limits && number < 5, "{given:?}: {answer:#x}");
                for len in [0, 1, 21, 22, 65_536 + len] {
                    let answer = told(&harness.make(&given, len));
                    let expected = if in_limits { 5 } else { number };
                    assert_eq!(answer, expected, "{given:?} in {len}");
                }
            }
        }
    }
    let [n1, n2, b1, b2, t, rv, v_low, rh, h_low] = [u32::MAX; 9];
    let all = Given { n1, n2, b1, b2, t, rv, v_low, rh, h_low };
    assert_eq!(harness.make(&all, 60), refused(2, 0, 0));
    assert_eq!(harness.make(&Given { b1: 1, b2: 1, ..all }, 60), refused(3, 0, 0));
    let sizes_good = Given { b1: 4, b2: 4, n1: 4, n2: 4, ..all };
    assert_eq!(harness.make(&sizes_good, 60), refused(4, 0, 0));
    assert_eq!(harness.make(&Given { rv: 32, rh: 32, ..sizes_good }, 60), refused(23, 0, 0));
}

/// Every length about the right one is turned back, and so are such as differ from it by 256 or
/// 65,536. The guarded buffers hand over null for about half of the empty ones.
#[test]
fn lengths() {
    let mut harness = Harness::new(12);
    let largest_sizes = Given::new([512, 698, 4, 4], WIDE, WIDE);
    for given in [nine_cells(), Given::new([20, 30, 2, 3], WIDE, WIDE), largest_sizes] {
        let right = given.plan_len();
        let about = (right - 20..right).chain(right + 1..right + 20);
        let far = [right + 256, right + 65_536, right + 131_072];
        for len in (0..24).chain(about).chain(far) {
            assert_eq!(harness.make(&given, len), refused(5, 0, 0), "{len} for {right}");
        }
        assert_ne!(told(&harness.make(&given, right)), 5);
    }
}

/// What is wrong about numbers or length, one fault for each check that asks no table, in the order
/// of the checks.
type Fault = (u64, fn(&mut Given, &mut usize));
const FAULTS: [Fault; 6] = [
    (2, |given, _| given.b2 = 5),
    (3, |given, _| given.n1 = 513),
    (4, |given, _| given.rh = 33),
    (23, |given, _| given.t = 3),
    (5, |_, len| *len += 1),
    (15, |given, _| given.v_low &= !1),
];

/// Of several checks that fail, the first in the order 2, 3, 4, 23, 5, 15, 8, 9, 16 is told: each set of
/// the first six, with tables of each kind.
#[test]
fn order_of_the_checks() {
    let mut harness = Harness::new(13);
    // z + 1 fails 8 for V and 9 for H; it and z^3 + 1 have an even number of terms, so that any two
    // of them fail 16.
    let kinds = [
        (single(3, 3, Z2_Z_1, Z2_Z_1), Answer::default()),
        (single(3, 3, Z_1, Z2_Z_1), Answer::refusal(8, 0, 1)),
        (single(3, 3, Z2_Z_1, Z_1), Answer::refusal(9, 0, 1)),
        (single(3, 3, Z3_1, Z3_1), Answer::refusal(16, 0, 0)),
        (single(3, 3, Z_1, Z3_1), Answer::refusal(8, 0, 1)),
        (single(3, 3, Z3_1, Z_1), Answer::refusal(9, 0, 1)),
        (single(3, 3, Z_1, Z_1), Answer::refusal(8, 0, 1)),
    ];
    for (base, of_tables) in kinds {
        for set in 0..1 << FAULTS.len() {
            let (mut given, mut len) = (base, base.plan_len());
            let chosen = FAULTS.iter().enumerate().filter(|(at, _)| set >> at & 1 == 1);
            chosen.clone().for_each(|(_, (_, fault))| fault(&mut given, &mut len));
            let first = chosen.clone().next();
            let expected =
                first.map_or(of_tables, |(_, (number, _))| Answer::refusal(*number, 0, 0));
            assert_eq!(told(&harness.make(&given, len)), expected.pack(), "{given:?} in {len}");
        }
    }
}

//! sheet_read_two by the thousands, and the row where the scans first differ beside it: scans of one written
//! sheet with a burst on either, both or none; of two sheets; such as cannot be mended; bursts on check cells
//! alone; full size.

use sheet_tests::compared::{house_by_call, Harness, Written};
use sheet_tests::make::{
    accepted, burst_sizes, largest_4x4, no_data, powers_1x1, wide_3x3, CellOrder,
};
use sheet_tests::model::{self, altered_data, Cell};
use sheet_tests::pairs::{check_burst, edge_bursts, hopeless};
use sheet_tests::plan::Plan;
use sheet_tests::positions::every_position;
use sheet_tests::scans::{burst, random_burst, random_pattern, random_sheet, turned};
use sheet_tests::tally::Tally;

/// What the library answers to two scans, and the data as it is left: what was held if it refuses, which
/// the call on guarded buffers makes sure of.
fn read(harness: &mut Harness, written: &Written, first: &[u8], second: &[u8]) -> (u64, Vec<u8>) {
    let mut data = harness.rng.bytes(written.data.len());
    let answer = harness.library.read_two(&written.bytes, first, second, &mut data);
    (answer, data)
}

/// The cells that are in one of two bursts alone.
fn in_one_alone(left: &[Cell], right: &[Cell]) -> Vec<Cell> {
    let only = |of: &[Cell], not_in: &[Cell]| -> Vec<Cell> {
        of.iter().filter(|cell| !not_in.contains(cell)).copied().collect()
    };
    [only(left, right), only(right, left)].concat()
}

/// 02 g): two scans of one written sheet, a burst on either or both, always give its data.
fn gives_its_data(harness: &mut Harness, written: &Written, bursts: [&[Cell]; 2]) {
    let Written { plan, data, sheet, .. } = written;
    let [first, second] = bursts.map(|burst| turned(plan, sheet, burst));
    let (answer, given) = read(harness, written, &first, &second);
    assert!(answer == 0 && given == *data, "{answer:#x}: {bursts:?} under {plan:?}");
    harness.differs_first(plan, [&first, &second], &in_one_alone(bursts[0], bursts[1]));
}

/// Bursts of every size on either scan, on both, on none, and the same burst on both.
#[test]
fn bursts_on_either_or_both() {
    let mut harness = Harness::new(91);
    let (mut pairs, mut without) = (0, 0);
    for (b1, b2) in burst_sizes() {
        for _ in 0..30 {
            let plan = accepted(&mut harness.rng, b1, b2, 12);
            let written = harness.written(plan);
            without += usize::from(written.data.is_empty());
            gives_its_data(&mut harness, &written, [&[], &[]]);
            for _ in 0..10 {
                let one = random_burst(&written.plan, &mut harness.rng);
                let other = random_burst(&written.plan, &mut harness.rng);
                for bursts in [[&one[..], &[]], [&[], &one], [&one, &other], [&one, &one]] {
                    gives_its_data(&mut harness, &written, bursts);
                    pairs += 1;
                }
            }
        }
    }
    println!("{pairs} pairs of scans; {without} plans without data");
    assert!(pairs >= 10_000 && without >= 3);
}

/// The full burst at each corner, on each edge and in the middle, of either scan beside that of the other;
/// and every rectangle of small sheets, on either scan.
#[test]
fn bursts_at_corners_and_everywhere() {
    let mut harness = Harness::new(92);
    let mut pairs = 0;
    for (b1, b2) in burst_sizes() {
        let plan = accepted(&mut harness.rng, b1, b2, 9);
        let written = harness.written(plan);
        let plan = &written.plan;
        let edges = edge_bursts(plan);
        for one in &edges {
            for other in &edges {
                gives_its_data(&mut harness, &written, [one, other]);
                pairs += 1;
            }
        }
        for top in 0..=plan.n1 - b1 {
            for left in 0..=plan.n2 - b2 {
                let pattern = random_pattern(plan, &mut harness.rng);
                let (one, other) =
                    (burst(plan, top, left, pattern), harness.rng.below(edges.len()));
                gives_its_data(&mut harness, &written, [&one, &edges[other]]);
                gives_its_data(&mut harness, &written, [&edges[other], &one]);
                pairs += 2;
            }
        }
    }
    println!("{pairs} pairs of bursts");
    assert!(pairs >= 2000);
}

/// Bursts on check cells alone, on either scan or both: the scans differ, and their data do not, mended or
/// not.
#[test]
fn bursts_on_check_cells() {
    let mut harness = Harness::new(93);
    let mut pairs = 0;
    for (b1, b2) in burst_sizes() {
        for _ in 0..20 {
            let plan = accepted(&mut harness.rng, b1, b2, 12);
            let written = harness.written(plan);
            for _ in 0..10 {
                let plan = &written.plan;
                let one = check_burst(plan, &mut harness.rng);
                let other = check_burst(plan, &mut harness.rng);
                let scan = turned(plan, &written.sheet, &one);
                assert!(scan != written.sheet && model::data_of(plan, &scan) == written.data);
                for bursts in [[&one[..], &[]], [&[], &one], [&one, &other]] {
                    gives_its_data(&mut harness, &written, bursts);
                    pairs += 1;
                }
            }
        }
    }
    println!("{pairs} pairs with bursts on check cells");
    assert!(pairs >= 9000);
}

/// A sheet of the same plan that is written from other data.
fn written_from(written: &Written, data: Vec<u8>) -> Written {
    let sheet = model::write_sheet(&written.plan, &data);
    Written { plan: written.plan.clone(), bytes: written.bytes.clone(), data, sheet }
}

/// Scans of two written sheets, with bursts on either, both or none: 19, since their data differ. No byte of
/// the data buffer changes.
fn data_differ(harness: &mut Harness, one: &Written, other: &Written) {
    let on_one = random_burst(&one.plan, &mut harness.rng);
    let on_other = random_burst(&one.plan, &mut harness.rng);
    for bursts in [[&[][..], &[]], [&on_one, &[]], [&[], &on_other], [&on_one, &on_other]] {
        let first = turned(&one.plan, &one.sheet, bursts[0]);
        let second = turned(&one.plan, &other.sheet, bursts[1]);
        for (first, second) in [(&first, &second), (&second, &first)] {
            let (answer, _) = read(harness, one, first, second);
            assert_eq!(answer, 19, "{bursts:?} under {:?}", one.plan);
        }
    }
}

/// The data with its first byte and another exchanged: as many bits are 1, and the bytes have the same sum
/// and the same exclusive-or. None if no such byte differs. The last one may have unused bits, and stays.
fn with_bytes_exchanged(data: &[u8]) -> Option<Vec<u8>> {
    let (_, whole) = data.split_last()?;
    let at = whole.iter().rposition(|&byte| byte != whole[0])?;
    let mut exchanged = data.to_vec();
    exchanged.swap(0, at);
    Some(exchanged)
}

/// Every data bit alone may be what differs, the first and the last of them too; two bytes that are exchanged;
/// or many. Where the data are the same, it is one sheet and its data is given.
#[test]
fn scans_of_two_sheets() {
    let mut harness = Harness::new(94);
    let (mut sheets, mut exchanged, mut same) = (0, 0, 0);
    for (b1, b2) in burst_sizes() {
        for _ in 0..8 {
            let plan = accepted(&mut harness.rng, b1, b2, 12);
            let one = harness.written(plan);
            for position in every_position(&one.plan) {
                let other = written_from(&one, altered_data(&one.data, position));
                data_differ(&mut harness, &one, &other);
                sheets += 1;
            }
            if let Some(data) = with_bytes_exchanged(&one.data) {
                data_differ(&mut harness, &one, &written_from(&one, data));
                exchanged += 1;
            }
            for _ in 0..10 {
                let other = harness.written_accepted(one.plan.clone());
                if other.data == one.data {
                    let (answer, data) = read(&mut harness, &one, &one.sheet, &other.sheet);
                    assert!(answer == 0 && data == one.data);
                    same += 1;
                } else {
                    data_differ(&mut harness, &one, &other);
                    sheets += 1;
                }
            }
        }
    }
    println!("{sheets} pairs of written sheets, 8 pairs of scans each; {same} with the same data");
    println!("{exchanged} with bytes exchanged");
    assert!(sheets >= 3000 && exchanged >= 40 && same >= 10);
}

/// One scan that cannot be mended beside one that can, either way round: the data of that one. Two that
/// cannot: 14. No byte of the data buffer changes then.
#[test]
fn scans_that_cannot_be_mended() {
    let mut harness = Harness::new(95);
    let mut tally = Tally::default();
    for (b1, b2) in burst_sizes() {
        for _ in 0..20 {
            let plan = accepted(&mut harness.rng, b1, b2, 12);
            let written = harness.written(plan);
            let Written { plan, data, sheet, .. } = &written;
            for _ in 0..5 {
                let rng = &mut harness.rng;
                let (Some(one), Some(other)) = (hopeless(plan, rng), hopeless(plan, rng)) else {
                    continue;
                };
                let good = turned(plan, sheet, &random_burst(plan, rng));
                for (first, second) in [(&one, &good), (&good, &one), (sheet, &one), (&one, sheet)]
                {
                    let (answer, given) = harness.both_read(plan, first, second);
                    assert!(answer == 0 && given == *data, "{answer:#x} under {plan:?}");
                    tally.count(answer);
                }
                for (first, second) in [(&one, &other), (&other, &one), (&one, &one)] {
                    let (answer, _) = harness.both_read(plan, first, second);
                    assert_eq!(answer, 14, "{plan:?}");
                    tally.count(answer);
                }
            }
        }
    }
    tally.require("scans that cannot be mended", &[(0..=0, 4000), (14..=14, 3000)]);
}

/// Random scans, and scans of a written sheet with two bursts, as the model reads them: under small plans
/// some can be mended by chance, and then mostly to other data.
#[test]
fn random_scans() {
    let mut harness = Harness::new(96);
    let mut tally = Tally::default();
    for (b1, b2) in burst_sizes() {
        for _ in 0..20 {
            let plan = accepted(&mut harness.rng, b1, b2, 3);
            let Written { plan, sheet, .. } = harness.written(plan);
            for _ in 0..30 {
                let rng = &mut harness.rng;
                let two = [random_burst(&plan, rng), random_burst(&plan, rng)].concat();
                let twice = turned(&plan, &sheet, &two);
                let once = turned(&plan, &sheet, &random_burst(&plan, rng));
                let (one, other) = (random_sheet(&plan, rng), random_sheet(&plan, rng));
                for (first, second) in
                    [(&one, &other), (&twice, &once), (&once, &twice), (&twice, &one)]
                {
                    tally.count(harness.both_read(&plan, first, second).0);
                    harness.differing_row(&plan, first, second);
                }
            }
        }
    }
    tally.require("random scans", &[(0..=0, 5000), (14..=14, 2000), (19..=19, 100)]);
}

/// Plans without data: either scan may be one that cannot be mended.
#[test]
fn plans_without_data() {
    let mut harness = Harness::new(99);
    let mut tally = Tally::default();
    let mut plans = vec![no_data()];
    for (b1, b2) in burst_sizes() {
        let some: Vec<_> = (0..60).map(|_| accepted(&mut harness.rng, b1, b2, 3)).collect();
        plans.extend(some.into_iter().filter(|plan| plan.data_bits() == 0));
    }
    println!("{} plans without data", plans.len());
    for plan in &plans {
        for _ in 0..30 {
            let (rng, light) = (&mut harness.rng, vec![0; plan.sheet_len()]);
            let (one, other) = (random_sheet(plan, rng), random_sheet(plan, rng));
            for (first, second) in [(&one, &other), (&one, &light), (&light, &one), (&one, &one)] {
                tally.count(harness.both_read(plan, first, second).0);
            }
        }
    }
    assert!(plans.len() >= 10);
    tally.require("plans without data", &[(0..=0, 500), (14..=14, 100)]);
    assert_eq!(tally.met(19), 0);
}

/// The plans of full size, with 20 to 64 check cells, the house plan among them.
fn full_size_plans(harness: &mut Harness) -> [Plan; 4] {
    let rng = &mut harness.rng;
    [
        house_by_call(),
        powers_1x1(CellOrder::Scattered, rng),
        wide_3x3(CellOrder::Scattered, rng),
        largest_4x4(CellOrder::Scattered, rng),
    ]
}

/// Full size: bursts at corners and edges, on either scan or both.
#[test]
fn full_size() {
    let mut harness = Harness::new(100);
    for plan in full_size_plans(&mut harness) {
        let written = harness.written_accepted(plan);
        let edges = edge_bursts(&written.plan);
        gives_its_data(&mut harness, &written, [&[], &[]]);
        for (at, one) in edges.iter().enumerate() {
            let other = &edges[(at + 4) % edges.len()];
            for bursts in [[&one[..], &[]], [&[], one], [one, other], [one, one]] {
                gives_its_data(&mut harness, &written, bursts);
            }
        }
    }
}

/// Full size: data that differ in one bit, the first, the last or one between, give 19; a scan that cannot be
/// mended beside one that can, either way round; two that cannot give 14; and unused bits, where rows have
/// any: the place in the first scan, or that in the second.
#[test]
fn full_size_refusals() {
    let mut harness = Harness::new(101);
    for plan in full_size_plans(&mut harness) {
        let one = harness.written_accepted(plan);
        let Written { plan, data, sheet, .. } = &one;
        let k = plan.data_bits() as u32;
        for position in [0, 7, 8, 1 << 16, k / 2, k - 2, k - 1] {
            let other = written_from(&one, altered_data(data, position));
            data_differ(&mut harness, &one, &other);
        }

        let lost = hopeless(plan, &mut harness.rng).expect("not every sheet can be mended");
        let good = turned(plan, sheet, &edge_bursts(plan)[8]);
        for (first, second) in [(&lost, &good), (&good, &lost), (&lost, sheet), (sheet, &lost)] {
            let (answer, given) = read(&mut harness, &one, first, second);
            assert!(answer == 0 && given == *data);
        }
        assert_eq!(read(&mut harness, &one, &lost, &lost).0, 14);

        let (middle, last) = (300 * plan.row_len() % sheet.len() - 1, sheet.len() - 1);
        let spoilt = |byte: usize| {
            let mut scan = sheet.clone();
            scan[byte] |= 0x80;
            scan
        };
        for (first, second, byte) in [
            (&spoilt(last), &spoilt(middle), last),
            (&spoilt(middle), &lost, middle),
            (&lost, &spoilt(last), last),
            (sheet, &spoilt(middle), middle),
        ] {
            assert_eq!(read(&mut harness, &one, first, second).0, 13 | (byte as u64) << 5);
            harness.differs_first(plan, [first, second], &[]);
        }
    }
}

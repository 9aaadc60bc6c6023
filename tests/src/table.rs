//! The table of answers that the getters of include/sheet.h are tested against.

use crate::answer::Answer;
use crate::rng::Rng;

/// A line for each of some 64-bit numbers: the number in hexadecimal, and the nine fields that it tells. They are each
/// bit alone, under the number 0 and under others; all bits but one; and random ones, half of them with the number 0.
pub fn answers() -> String {
    let mut rng = Rng::new(31);
    let mut numbers = vec![0, u64::MAX, u64::MAX - 31];
    for bit in 0..64 {
        let one = 1 << bit;
        numbers.extend([one, one | 1, one | 31, !one, !one & !31]);
    }
    for _ in 0..64 {
        let any = u64::from(rng.bits(32)) << 32 | u64::from(rng.bits(32));
        numbers.extend([any, any & !31]);
    }
    numbers.sort_unstable();
    numbers.dedup();
    numbers.into_iter().map(line).collect()
}

fn line(bits: u64) -> String {
    let fields = Answer::told_by(bits).fields().map(|field| field.to_string());
    format!("{bits:016x} {}\n", fields.join(" "))
}

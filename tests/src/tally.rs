//! How often each number of an answer was met.

use std::ops::RangeInclusive;

use crate::answer::Answer;

#[derive(Default)]
pub struct Tally([u64; 32]);

impl Tally {
    pub fn count(&mut self, packed: u64) {
        self.0[Answer::unpack(packed).number as usize] += 1;
    }

    /// Count what another has met.
    pub fn add(&mut self, other: &Tally) {
        self.0.iter_mut().zip(other.0).for_each(|(count, more)| *count += more);
    }

    /// How often this number was met.
    pub fn met(&self, number: usize) -> u64 {
        self.0[number]
    }

    /// Print the counts, and fail if a number of one of these ranges was met less often than told.
    pub fn require(&self, what: &str, least: &[(RangeInclusive<usize>, u64)]) {
        let met = self.0.iter().enumerate().filter(|(_, &count)| count > 0);
        let met: Vec<String> = met.map(|(number, count)| format!("{number}: {count}")).collect();
        let total: u64 = self.0.iter().sum();
        println!("{what}: {total} calls; numbers met: {}", met.join(", "));
        for (numbers, least) in least {
            for number in numbers.clone() {
                let count = self.0[number];
                assert!(count >= *least, "number {number} was met {count} times, not {least}");
            }
        }
    }
}

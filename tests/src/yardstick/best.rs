//! The pair tests as fast as we could write them in scalar Rust, with 11 KB of tables.
//!
//! For a fixed first window (or strip) the question about all second ones is the same in both
//! tests: of a sequence of groups of vectors, is each run of W groups independent? For rows the
//! groups are the V entries of the later rows, reduced by the first window's basis; for columns,
//! the H entries of the later columns, each exclusive-or the entry of the first strip's column with
//! the same remainder. The runs are taken two at a time, since neighbours share all groups but
//! two, and reduced without branches; a failure is located by a slower second look.

use super::{sparse, Basis};
use crate::answer::Places;
use crate::plan::Plan;

pub fn windows(plan: &Plan) -> Places {
    if plan.t != 0 {
        return sparse::windows(plan);
    }
    dispatch(plan.b1, plan.b2, Windows(plan))
}

pub fn strips(plan: &Plan) -> Places {
    if plan.t != 0 {
        return sparse::strips(plan);
    }
    dispatch(plan.b1, plan.b2, Strips(plan))
}

/// A pair test written for one size of burst, so that all inner loops have fixed lengths.
trait PairTest {
    fn run<const B1: usize, const B2: usize>(self) -> Places;
}

fn dispatch(b1: usize, b2: usize, test: impl PairTest) -> Places {
    macro_rules! sizes {
        ($($b1:literal $b2:literal),*) => {
            match (b1, b2) {
                $(($b1, $b2) => test.run::<$b1, $b2>(),)*
                _ => unreachable!("check 2 lets no such burst pass"),
            }
        };
    }
    sizes!(1 1, 1 2, 1 3, 1 4, 2 1, 2 2, 2 3, 2 4, 3 1, 3 2, 3 3, 3 4, 4 1, 4 2, 4 3, 4 4)
}

struct Windows<'a>(&'a Plan);

impl PairTest for Windows<'_> {
    fn run<const B1: usize, const B2: usize>(self) -> Places {
        let v = &self.0.v;
        let mut groups = [0; 512 * 4];
        for i in 0..=self.0.n1 - B1 {
            let (before, later) = v.split_at((i + B1) * B2);
            let mut first = [0; 16];
            first[..B1 * B2].copy_from_slice(&before[i * B2..]);
            if !echelon(&mut first[..B1 * B2]) {
                return Some((i, i));
            }
            let groups = &mut groups[..later.len()];
            groups.copy_from_slice(later);
            for &member in &first[..B1 * B2] {
                reduce(groups, member);
            }
            if let Some(group) = first_dependent_run::<B2, B1>(groups) {
                return Some((i, i + 1 + group));
            }
        }
        None
    }
}

struct Strips<'a>(&'a Plan);

impl PairTest for Strips<'_> {
    fn run<const B1: usize, const B2: usize>(self) -> Places {
        let h = &self.0.h;
        let mut groups = [0; 698 * 4];
        for c in 0..=self.0.n2 - B2 {
            let (before, later) = h.split_at((c + B2) * B1);
            let first = &before[c * B1..];
            // b2 columns at a time stand over those of the first strip.
            for (strip, of) in groups.chunks_mut(B1 * B2).zip(later.chunks(B1 * B2)) {
                for ((group, entry), over) in strip.iter_mut().zip(of).zip(first) {
                    *group = entry ^ over;
                }
            }
            if let Some(group) = first_dependent_run::<B1, B2>(&groups[..later.len()]) {
                return Some((c, c + 1 + group));
            }
        }
        None
    }
}

/// Clear the highest bit of `member` in each vector: of a vector and its exclusive-or with the
/// member, the smaller is the one without that bit.
#[inline(always)]
fn reduce(vectors: &mut [u32], member: u32) {
    for vector in vectors {
        *vector = (*vector).min(*vector ^ member);
    }
}

/// Reduce each vector by those before it; true if none becomes 0.
#[inline(always)]
fn echelon(vectors: &mut [u32]) -> bool {
    let mut independent = true;
    for k in 0..vectors.len() {
        let (before, later) = vectors.split_at_mut(k + 1);
        independent &= before[k] != 0;
        reduce(later, before[k]);
    }
    independent
}

/// The last group of the first dependent run of W groups of G vectors (of fewer at the start).
fn first_dependent_run<const G: usize, const W: usize>(groups: &[u32]) -> Option<usize> {
    if runs_independent::<G, W>(groups) {
        return None;
    }
    (0..groups.len() / G).find(|last| {
        let run = &groups[(last + 1).saturating_sub(W) * G..(last + 1) * G];
        let mut basis = Basis::EMPTY;
        !run.iter().all(|&vector| basis.add(vector))
    })
}

/// Is each run of W groups independent? The shorter runs at the start are part of the first.
fn runs_independent<const G: usize, const W: usize>(groups: &[u32]) -> bool {
    let run = G * W;
    let mut independent = true;
    let mut rest = groups;
    while rest.len() > run {
        independent &= two_runs_independent::<G, W>(rest);
        rest = &rest[2 * G..];
    }
    let mut last = [0; 16];
    let last = &mut last[..rest.len().min(run)];
    last.copy_from_slice(&rest[..last.len()]);
    independent & echelon(last)
}

/// Are the first two runs of W groups independent? They share the W - 1 groups in the middle.
#[inline(always)]
fn two_runs_independent<const G: usize, const W: usize>(groups: &[u32]) -> bool {
    let (run, middle_len) = (G * W, G * (W - 1));
    let mut middle = [0; 12];
    let (mut front, mut back) = ([0; G], [0; G]);
    front.copy_from_slice(&groups[..G]);
    middle[..middle_len].copy_from_slice(&groups[G..run]);
    back.copy_from_slice(&groups[run..run + G]);
    let mut independent = true;
    for k in 0..middle_len {
        let (before, later) = middle[..middle_len].split_at_mut(k + 1);
        independent &= before[k] != 0;
        reduce(later, before[k]);
        reduce(&mut front, before[k]);
        reduce(&mut back, before[k]);
    }
    independent & echelon(&mut front) & echelon(&mut back)
}

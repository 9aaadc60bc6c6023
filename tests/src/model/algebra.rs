//! Gaussian elimination over bits, with vectors as 64-bit words.

fn lowest_bit(vector: u64) -> u64 {
    vector & vector.wrapping_neg()
}

/// All that exclusive-ors of the vectors added so far can make.
#[derive(Default)]
pub struct Span {
    /// None is 0, and the lowest bit of each is 0 in all the later ones.
    members: Vec<u64>,
}

impl Span {
    /// Add a vector. False if it is an exclusive-or of those added before; 0 is, even of none.
    pub fn add(&mut self, mut vector: u64) -> bool {
        for &member in &self.members {
            if vector & lowest_bit(member) != 0 {
                vector ^= member;
            }
        }
        if vector != 0 {
            self.members.push(vector);
        }
        vector != 0
    }
}

/// Does no nonempty subset have exclusive-or 0? Equal vectors at different positions are
/// dependent, and so is a zero vector alone.
pub fn independent(vectors: impl IntoIterator<Item = u64>) -> bool {
    let mut span = Span::default();
    vectors.into_iter().all(|vector| span.add(vector))
}

/// A subset of at most 64 vectors with exclusive-or `target`, as a mask of positions. If the
/// vectors are independent there is no other.
pub fn solve(vectors: impl IntoIterator<Item = u64>, target: u64) -> Option<u64> {
    // As in a span, each member with the mask of the vectors that it is made of.
    let mut members: Vec<(u64, u64)> = Vec::new();
    let reduce = |members: &[(u64, u64)], mut vector: u64, mut mask: u64| {
        for &(member, of) in members {
            if vector & lowest_bit(member) != 0 {
                vector ^= member;
                mask ^= of;
            }
        }
        (vector, mask)
    };
    for (position, vector) in vectors.into_iter().enumerate() {
        let reduced = reduce(&members, vector, 1 << position);
        if reduced.0 != 0 {
            members.push(reduced);
        }
    }
    let (rest, mask) = reduce(&members, target, 0);
    (rest == 0).then_some(mask)
}

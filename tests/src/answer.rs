//! The 64-bit answer of a call, as docs/ANSWER.md lays it out.

/// The fields of an answer. A success has no places, and a refusal none of the last six: so the places and the six
/// share bits. All are 0 in the answer of a call that succeeded and had nothing to mend.
#[derive(Clone, Copy, Debug, Default, PartialEq, Eq)]
pub struct Answer {
    pub number: u64,
    pub p: u64,
    pub q: u64,
    pub cells: u64,
    pub top: u64,
    pub left: u64,
    pub height: u64,
    pub width: u64,
    pub pattern: u64,
}

/// The places of a failure, if there is one.
pub type Places = Option<(usize, usize)>;

/// How many bits the number has, which are the lowest.
const NUMBER: u32 = 5;

/// How many bits p and q have, above a number that is not 0.
const PLACES: [u32; 2] = [16, 12];

/// How many bits each of the reader's six has, above a number that is 0.
pub const MENDED: [u32; 6] = [5, 9, 10, 3, 3, 16];

impl Answer {
    /// Check `number` failed at the places p and q.
    pub fn refusal(number: u64, p: usize, q: usize) -> Answer {
        Answer { number, p: p as u64, q: q as u64, ..Answer::default() }
    }

    /// The refusal of a check that tells no places, if it fails.
    pub fn refuse_if(fails: bool, number: u64) -> Result<(), Answer> {
        if fails {
            Err(Answer::refusal(number, 0, 0))
        } else {
            Ok(())
        }
    }

    /// The refusal of a check that fails at these places, if there are any.
    pub fn refuse_at(places: Places, number: u64) -> Result<(), Answer> {
        match places {
            Some((p, q)) => Err(Answer::refusal(number, p, q)),
            None => Ok(()),
        }
    }

    pub fn is_refusal(self) -> bool {
        self.number != 0
    }

    /// Number, p and q alone: what the plan test tells.
    pub fn places(self) -> (u64, u64, u64) {
        (self.number, self.p, self.q)
    }

    /// A success that tells these six numbers.
    pub fn of_mended([cells, top, left, height, width, pattern]: [u64; 6]) -> Answer {
        Answer { cells, top, left, height, width, pattern, ..Answer::default() }
    }

    /// The six numbers that the reader tells.
    pub fn mended(self) -> [u64; 6] {
        [self.cells, self.top, self.left, self.height, self.width, self.pattern]
    }

    /// All nine fields: what a stack tells of each sheet.
    pub fn fields(self) -> [u64; 9] {
        let [cells, top, left, height, width, pattern] = self.mended();
        [self.number, self.p, self.q, cells, top, left, height, width, pattern]
    }

    pub fn pack(self) -> u64 {
        let above = if self.is_refusal() {
            assert_eq!(self.mended(), [0; 6], "a refusal tells of cells");
            joined([self.p, self.q], PLACES)
        } else {
            assert_eq!([self.p, self.q], [0; 2], "a success has places");
            joined(self.mended(), MENDED)
        };
        joined([self.number, above], [NUMBER, 64 - NUMBER])
    }

    /// What any 64 bits tell: the places if the number is not 0, the reader's six if it is. Bits that belong to no
    /// field are passed over.
    pub fn told_by(bits: u64) -> Answer {
        let [number, above] = parted(bits, [NUMBER, 64 - NUMBER]);
        if number == 0 {
            Answer::of_mended(parted(above, MENDED))
        } else {
            let [p, q] = parted(above, PLACES);
            Answer { number, p, q, ..Answer::default() }
        }
    }

    /// The fields of a packed answer. Bits that belong to no field must be 0.
    pub fn unpack(packed: u64) -> Answer {
        let answer = Answer::told_by(packed);
        assert_eq!(answer.pack(), packed, "a bit is set that belongs to no field");
        answer
    }
}

/// Fields of so many bits as one number, the first of them lowest.
pub fn joined<const N: usize>(fields: [u64; N], bits: [u32; N]) -> u64 {
    let mut all = 0;
    let mut shift = 0;
    for (field, bits) in fields.into_iter().zip(bits) {
        assert!(field >> bits == 0, "{field} does not fit in {bits} bits");
        all |= field << shift;
        shift += bits;
    }
    all
}

/// The lowest bits of a number as fields of so many bits.
fn parted<const N: usize>(mut all: u64, bits: [u32; N]) -> [u64; N] {
    bits.map(|bits| {
        let field = all & ((1 << bits) - 1);
        all >>= bits;
        field
    })
}

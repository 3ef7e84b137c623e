//! Two copies of one buffer, lent to archive and oracle: both must leave the same contents, and of what
//! stands around the lent part and behind the answer nothing may change.

/// Entries before and behind the part that is lent.
const GUARD: usize = 16;

pub struct Twins<T = u8> {
    archive: Vec<T>,
    oracle: Vec<T>,
    pattern: Vec<T>,
    lent: usize,
}

impl Twins {
    /// Twins of which up to `most` bytes can be lent.
    pub fn new(most: usize) -> Twins {
        Twins::of(most, |at| (at * 7 + 0xA5) as u8)
    }
}

impl<T: Copy + PartialEq> Twins<T> {
    /// Twins of which up to `most` entries can be lent, all told by their place.
    pub fn of(most: usize, entry: impl Fn(usize) -> T) -> Twins<T> {
        let pattern: Vec<T> = (0..most + 2 * GUARD).map(entry).collect();
        Twins { archive: pattern.clone(), oracle: pattern.clone(), pattern, lent: most }
    }

    /// The first `len` entries of each, for the archive and for the oracle.
    pub fn lend(&mut self, len: usize) -> (&mut [T], &mut [T]) {
        self.lent = len;
        let part = GUARD..GUARD + len;
        (&mut self.archive[part.clone()], &mut self.oracle[part])
    }

    /// Both were left alike, and only the first `answer` of the lent entries were touched.
    #[track_caller]
    pub fn assert_alike(&mut self, answer: usize) {
        let (part, all) = (GUARD..GUARD + answer, self.lent + 2 * GUARD);
        assert!(self.archive[part.clone()] == self.oracle[part.clone()], "the buffers differ");
        for lent in [&mut self.archive, &mut self.oracle] {
            let kept = |range: std::ops::Range<usize>| lent[range.clone()] == self.pattern[range];
            assert!(kept(0..GUARD) && kept(GUARD + answer..all), "another entry was changed");
            lent[part.clone()].copy_from_slice(&self.pattern[part.clone()]);
        }
    }
}

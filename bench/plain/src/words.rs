//! Groups of bits, and what a way makes of one: the bits that it makes, and those that it keeps.

#[derive(Clone, Copy, PartialEq, Eq)]
pub struct Words<const N: usize>(pub [u64; N]);

impl<const N: usize> Words<N> {
    pub const NONE: Words<N> = Words([0; N]);
    pub const ALL: Words<N> = Words([u64::MAX; N]);

    /// Of the group that begins with the bit `first`, the bits below `count`.
    pub fn below(first: usize, count: usize) -> Words<N> {
        let mut words = Words::NONE;
        for (place, word) in words.0.iter_mut().enumerate() {
            let left = count.saturating_sub(first + 64 * place);
            *word = if left >= 64 { u64::MAX } else { (1 << left) - 1 };
        }
        words
    }

    #[inline(always)]
    pub fn has(&self, bit: usize) -> bool {
        self.0[bit / 64] >> (bit % 64) & 1 != 0
    }

    #[inline(always)]
    pub fn set(&mut self, bit: usize) {
        self.0[bit / 64] |= 1 << (bit % 64);
    }

    #[inline(always)]
    pub fn clear(&mut self, bit: usize) {
        self.0[bit / 64] &= !(1 << (bit % 64));
    }

    #[inline(always)]
    pub fn add(&mut self, other: &Words<N>) {
        for (word, other) in self.0.iter_mut().zip(&other.0) {
            *word |= other;
        }
    }

    #[inline(always)]
    pub fn remove(&mut self, other: &Words<N>) {
        for (word, other) in self.0.iter_mut().zip(&other.0) {
            *word &= !other;
        }
    }

    /// Adds the bits, and says whether that was news.
    #[inline(always)]
    pub fn join(&mut self, other: &Words<N>) -> bool {
        let mut news = 0;
        for (word, other) in self.0.iter_mut().zip(&other.0) {
            news |= other & !*word;
            *word |= other;
        }
        news != 0
    }
}

#[derive(Clone, Copy)]
#[repr(C, align(64))]
pub struct Effects<const N: usize> {
    pub made: Words<N>,
    pub kept: Words<N>,
}

impl<const N: usize> Effects<N> {
    /// Of no way at all.
    pub const NONE: Effects<N> = Effects { made: Words::NONE, kept: Words::NONE };
    /// Of the way from a place to itself.
    pub const SAME: Effects<N> = Effects { made: Words::NONE, kept: Words::ALL };

    /// What it makes of the bits that come in.
    #[inline(always)]
    pub fn of(&self, bits: &Words<N>) -> Words<N> {
        let mut out = Words::NONE;
        for place in 0..N {
            out.0[place] = self.made.0[place] | bits.0[place] & self.kept.0[place];
        }
        out
    }

    /// This way, and then the next.
    #[inline(always)]
    pub fn then(&self, next: &Effects<N>) -> Effects<N> {
        let mut both = Effects { made: next.of(&self.made), kept: Words::NONE };
        for place in 0..N {
            both.kept.0[place] = self.kept.0[place] & next.kept.0[place];
        }
        both
    }

    #[inline(always)]
    pub fn join(&mut self, other: &Effects<N>) -> bool {
        let made = self.made.join(&other.made);
        self.kept.join(&other.kept) || made
    }
}

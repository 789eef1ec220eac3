//! Sets of node or row numbers, all of which fit in a byte.

use std::cmp::Ordering;

const WORDS: usize = 4;
const WORD_BITS: usize = u64::BITS as usize;

/// A set of numbers from 0 to 255; number n is the bit of weight 2^n.
#[derive(Clone, Copy, Debug, Default, PartialEq, Eq)]
pub(crate) struct ByteSet([u64; WORDS]);

impl ByteSet {
    pub const EMPTY: ByteSet = ByteSet([0; WORDS]);

    pub fn single(number: usize) -> ByteSet {
        ByteSet::from_iter([number])
    }

    pub fn contains(&self, number: usize) -> bool {
        self.0[number / WORD_BITS] >> (number % WORD_BITS) & 1 == 1
    }

    pub fn insert(&mut self, number: usize) {
        self.0[number / WORD_BITS] |= 1 << (number % WORD_BITS);
    }

    fn combine(&self, other: &ByteSet, word: impl Fn(u64, u64) -> u64) -> ByteSet {
        ByteSet(std::array::from_fn(|at| word(self.0[at], other.0[at])))
    }

    pub fn union(&self, other: &ByteSet) -> ByteSet {
        self.combine(other, |a, b| a | b)
    }

    pub fn intersection(&self, other: &ByteSet) -> ByteSet {
        self.combine(other, |a, b| a & b)
    }

    pub fn without(&self, other: &ByteSet) -> ByteSet {
        self.combine(other, |a, b| a & !b)
    }

    pub fn is_empty(&self) -> bool {
        self.0.iter().fold(0, |any, word| any | word) == 0
    }

    pub fn is_disjoint(&self, other: &ByteSet) -> bool {
        self.intersection(other).is_empty()
    }

    pub fn is_subset(&self, other: &ByteSet) -> bool {
        self.without(other).is_empty()
    }

    pub fn len(&self) -> u32 {
        self.0.iter().map(|word| word.count_ones()).sum()
    }

    /// The numbers in the set, ascending.
    pub fn iter(&self) -> impl Iterator<Item = usize> {
        self.0.into_iter().enumerate().flat_map(|(at, mut word)| {
            std::iter::from_fn(move || {
                let lowest = (word != 0).then(|| word.trailing_zeros() as usize)?;
                word &= word - 1;
                Some(at * WORD_BITS + lowest)
            })
        })
    }

    /// The bits in ascending order, eight to a byte.
    pub fn bytes(&self) -> impl Iterator<Item = u8> {
        self.0.into_iter().flat_map(u64::to_le_bytes)
    }
}

impl FromIterator<usize> for ByteSet {
    fn from_iter<I: IntoIterator<Item = usize>>(numbers: I) -> ByteSet {
        let mut set = ByteSet::EMPTY;
        numbers.into_iter().for_each(|number| set.insert(number));
        set
    }
}

/// Sets are ordered by their sum of 2^number.
impl Ord for ByteSet {
    fn cmp(&self, other: &ByteSet) -> Ordering {
        self.0.iter().rev().cmp(other.0.iter().rev())
    }
}

impl PartialOrd for ByteSet {
    fn partial_cmp(&self, other: &ByteSet) -> Option<Ordering> {
        Some(self.cmp(other))
    }
}

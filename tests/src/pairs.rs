//! Sets of pairs (a, b) of valuations, where b may also be the end mark, and where they lie in the
//! lent storage.

/// Numbers of 64 bits that one set takes.
pub const SET_WORDS: usize = 1028;

/// A set of pairs for a sheet with `size` valuations. As a second component, `size` itself stands
/// for the end mark.
#[derive(Clone, Debug, PartialEq, Eq)]
pub struct Pairs {
    size: usize,
    members: Vec<bool>,
}

impl Pairs {
    pub fn none(size: usize) -> Pairs {
        Pairs { size, members: vec![false; size * (size + 1)] }
    }

    /// The second component that stands for the end mark.
    pub fn end(&self) -> usize {
        self.size
    }

    pub fn has(&self, a: usize, b: usize) -> bool {
        self.members[a * (self.size + 1) + b]
    }

    pub fn insert(&mut self, a: usize, b: usize) {
        self.members[a * (self.size + 1) + b] = true;
    }

    pub fn count(&self) -> usize {
        self.members.iter().filter(|member| **member).count()
    }

    /// Whether some pair begins with a.
    pub fn has_first(&self, a: usize) -> bool {
        (0..=self.size).any(|b| self.has(a, b))
    }

    /// The first components of its pairs, each once.
    pub fn firsts(&self) -> Vec<usize> {
        (0..self.size).filter(|&a| self.has_first(a)).collect()
    }

    pub fn all(&self) -> Vec<(usize, usize)> {
        let every = (0..self.size).flat_map(|a| (0..=self.size).map(move |b| (a, b)));
        every.filter(|&(a, b)| self.has(a, b)).collect()
    }

    /// The set that lies in these numbers, of which only pairs of this size count.
    pub fn from_words(size: usize, words: &[u64]) -> Pairs {
        let mut set = Pairs::none(size);
        for a in 0..size {
            for b in 0..=size {
                let (word, bit) = set.place(a, b);
                set.members[a * (size + 1) + b] = words[word] >> bit & 1 == 1;
            }
        }
        set
    }

    pub fn to_words(&self) -> Vec<u64> {
        let mut words = vec![0; SET_WORDS];
        self.write(&mut words);
        words
    }

    /// Writes the set where sheets of this size have theirs: rows below the size, and the last four
    /// numbers. The others stay as they are.
    pub fn write(&self, words: &mut [u64]) {
        words[..4 * self.size].fill(0);
        words[SET_WORDS - 4..SET_WORDS].fill(0);
        for (a, b) in self.all() {
            let (word, bit) = self.place(a, b);
            words[word] |= 1 << bit;
        }
    }

    /// The word and the bit of a pair: row a is the four words from 4 a, and the last four words
    /// tell which first components have the end mark.
    fn place(&self, a: usize, b: usize) -> (usize, usize) {
        if b == self.end() {
            return (1024 + a / 64, a % 64);
        }
        (4 * a + b / 64, b % 64)
    }
}

#[cfg(test)]
mod tests {
    use super::*;
    use crate::random::Random;

    #[test]
    fn places_by_hand() {
        let mut set = Pairs::none(256);
        set.insert(0, 0);
        set.insert(1, 65);
        set.insert(255, 255);
        set.insert(64, 256);
        set.insert(255, 256);
        let words = set.to_words();
        let expected = [(0, 1), (5, 2), (1023, 1 << 63), (1025, 1), (1027, 1 << 63)];
        for (place, &word) in words.iter().enumerate() {
            let found = expected.iter().find(|(at, _)| *at == place);
            assert_eq!(word, found.map_or(0, |(_, bits)| *bits), "word {place}");
        }
    }

    #[test]
    fn every_pair_has_a_bit_of_its_own() {
        let full = Pairs { size: 256, members: vec![true; 256 * 257] };
        assert_eq!(full.to_words(), vec![u64::MAX; SET_WORDS]);
        assert_eq!(full.count(), 65_792);
        let small = Pairs { size: 4, members: vec![true; 4 * 5] };
        assert_eq!(small.to_words().iter().map(|word| word.count_ones()).sum::<u32>(), 20);
    }

    #[test]
    fn rows_that_are_not_written() {
        for size in [4, 16, 128, 256] {
            let mut words = vec![u64::MAX; SET_WORDS];
            Pairs::none(size).write(&mut words);
            for (place, &word) in words.iter().enumerate() {
                let kept = 4 * size <= place && place < 1024;
                assert_eq!(word, if kept { u64::MAX } else { 0 }, "word {place} at size {size}");
            }
        }
    }

    #[test]
    fn words_and_back() {
        let mut random = Random::new(701);
        for size in [4, 8, 16, 32, 64, 128, 256] {
            let mut set = Pairs::none(size);
            for _ in 0..3 * size {
                set.insert(random.below(size), random.below(size + 1));
            }
            let mut words = set.to_words();
            assert_eq!(Pairs::from_words(size, &words), set);
            assert_eq!(set.all().len(), set.count());
            let mut firsts: Vec<usize> = set.all().iter().map(|&(a, _)| a).collect();
            firsts.dedup();
            assert_eq!(set.firsts(), firsts);
            // What lies beyond the size does not matter.
            if size < 256 {
                words[4 * size] = u64::MAX;
                words[4 * size - 1] |= 1 << 63;
                words[1027] |= 1 << 63;
                assert_eq!(Pairs::from_words(size, &words), set);
            }
        }
    }
}

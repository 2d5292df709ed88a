//! Sets of letters, and the masks that make some of them.

use std::fmt;

/// What a round may have been: bit j says that letter j is in the set.
#[derive(Clone, Copy, PartialEq, Eq)]
pub struct LetterSet(pub u64);

impl LetterSet {
    /// Every letter of so many inputs.
    pub fn all(inputs: usize) -> LetterSet {
        (0..1 << inputs).collect()
    }

    pub fn has(self, letter: usize) -> bool {
        self.0 >> letter & 1 == 1
    }

    pub fn letters(self) -> Vec<u8> {
        (0..64).filter(|&letter| self.has(letter as usize)).collect()
    }

    pub fn union(self, other: LetterSet) -> LetterSet {
        LetterSet(self.0 | other.0)
    }

    /// Whether every letter of another set is in it.
    pub fn includes(self, other: LetterSet) -> bool {
        other.letters().iter().all(|&letter| self.has(letter as usize))
    }

    /// Rule 21: the set is empty, or has a letter that is not below 2^m.
    pub fn is_bad(self, inputs: usize) -> bool {
        let letters = self.letters();
        letters.is_empty() || letters.iter().any(|&letter| letter as usize >= 1 << inputs)
    }
}

impl FromIterator<usize> for LetterSet {
    fn from_iter<T: IntoIterator<Item = usize>>(letters: T) -> LetterSet {
        LetterSet(letters.into_iter().fold(0, |bits, letter| bits | 1 << letter))
    }
}

impl fmt::Debug for LetterSet {
    fn fmt(&self, out: &mut fmt::Formatter) -> fmt::Result {
        write!(out, "{:#x}", self.0)
    }
}

/// Every letter of so many inputs as an alternative of its own, joined to a line of the journal program.
pub fn spelled_out(inputs: usize) -> String {
    let known = u8::MAX >> (8 - inputs);
    let marks: Vec<String> = (0..=known).map(|value| Heard { known, value }.marks(inputs)).collect();
    marks.join("|")
}

/// Masks over the inputs: those that were heard, and the values of these.
#[derive(Clone, Copy, Debug, PartialEq, Eq)]
pub struct Heard {
    pub known: u8,
    pub value: u8,
}

impl Heard {
    /// Whether a letter matches the known bits.
    pub fn matches(self, letter: usize) -> bool {
        letter & self.known as usize == self.value as usize
    }

    /// The letters of so many inputs that match, or the number of the rule that is broken first.
    pub fn letters(self, inputs: usize) -> Result<LetterSet, u32> {
        if !(1..=6).contains(&inputs) {
            return Err(4);
        }
        if self.known >> inputs != 0 || self.value & !self.known != 0 {
            return Err(11);
        }
        Ok((0..1 << inputs).filter(|&letter| self.matches(letter)).collect())
    }

    /// The same for masks that break no rule.
    pub fn set(self, inputs: usize) -> LetterSet {
        self.letters(inputs).expect("masks of the inputs")
    }

    /// As an alternative in a line of the journal program, input 0 first.
    pub fn marks(self, inputs: usize) -> String {
        let mark = |input: usize| match (self.known >> input & 1, self.value >> input & 1) {
            (0, _) => '?',
            (_, 0) => '0',
            _ => '1',
        };
        (0..inputs).map(mark).collect()
    }
}

#[cfg(test)]
mod tests {
    use super::*;

    #[test]
    fn sets() {
        let set: LetterSet = [0, 3, 63].into_iter().collect();
        assert_eq!((set.0, set.letters()), (1 << 63 | 0b1001, vec![0, 3, 63]));
        assert!(set.includes(LetterSet(0b1001)) && !set.includes(LetterSet(0b11)) && set.includes(LetterSet(0)));
        assert_eq!(
            (1..=6).map(LetterSet::all).collect::<Vec<_>>(),
            [0x3, 0xF, 0xFF, 0xFFFF, 0xFFFF_FFFF, u64::MAX].map(LetterSet)
        );
    }

    #[test]
    fn bad_sets() {
        for inputs in 1..=6 {
            assert!(LetterSet(0).is_bad(inputs) && !LetterSet::all(inputs).is_bad(inputs));
            for letter in 0..64 {
                assert_eq!(LetterSet(1 << letter).is_bad(inputs), letter >= 1 << inputs, "{inputs} {letter}");
                assert_eq!(LetterSet(1 << letter | 1).is_bad(inputs), letter >= 1 << inputs, "{inputs} {letter}");
            }
        }
    }

    #[test]
    fn sets_of_masks() {
        let letters = |known, value, inputs| Heard { known, value }.letters(inputs).map(|set| set.letters());
        assert_eq!(letters(0, 0, 2), Ok(vec![0, 1, 2, 3]));
        assert_eq!(letters(0b01, 0b01, 2), Ok(vec![1, 3]));
        assert_eq!(letters(0b10, 0b00, 2), Ok(vec![0, 1]));
        assert_eq!(letters(0b101, 0b100, 3), Ok(vec![4, 6]));
        assert_eq!(letters(63, 63, 6), Ok(vec![63]));
        assert_eq!([(1, 0), (0, 7), (1, 1)].map(|(value, m)| letters(0, value, m)), [Err(4), Err(4), Err(11)]);
        assert_eq!(
            [(2, 0), (2, 2), (1, 2)].map(|(known, value)| letters(known, value, 1)),
            [Err(11), Err(11), Err(11)]
        );
    }

    #[test]
    fn marks() {
        assert_eq!(Heard { known: 0b0101, value: 0b0001 }.marks(4), "1?0?");
        assert_eq!(Heard { known: 0, value: 0 }.marks(6), "??????");
        assert_eq!(spelled_out(2), "00|10|01|11");
        assert_eq!(spelled_out(6).len(), 64 * 7 - 1);
    }
}

//! Sets of letters.

use crate::raw;
use crate::refusal::Refusal;
use std::fmt;
use std::ops::{BitOr, BitOrAssign};

/// What a round may have been: a set of letters. A letter is the inputs of a round as a number, bit i
/// being input i; bit j of the set's number says that letter j is in it. Sets that a round refuses can be
/// written too: the empty one, and those with a letter beyond the sheet's inputs.
///
/// Two inputs are known to be alike, which is `00|11` in a line of the journal program:
///
/// ```
/// use jigwaret::LetterSet;
///
/// let neither = LetterSet::from_masks(2, 0b11, 0b00)?;
/// let both = LetterSet::from_masks(2, 0b11, 0b11)?;
/// let alike = neither | both;
/// assert_eq!(alike, LetterSet::from_bits(0b1001));
/// assert!(alike.letters().eq([0b00, 0b11]));
/// assert!(!alike.contains(0b01));
/// # Ok::<(), jigwaret::Refusal>(())
/// ```
#[derive(Clone, Copy, PartialEq, Eq, Hash)]
pub struct LetterSet {
    bits: u64,
}

impl LetterSet {
    /// The set with this number.
    pub const fn from_bits(bits: u64) -> LetterSet {
        LetterSet { bits }
    }

    /// Its number.
    pub const fn bits(self) -> u64 {
        self.bits
    }

    /// The letters that agree with masks, for a sheet with so many inputs: bit i of `known` says that
    /// input i was heard, bit i of `value` what was heard.
    pub fn from_masks(inputs: u8, known: u8, value: u8) -> Result<LetterSet, Refusal> {
        let mut bits = 0;
        Refusal::outcome(raw::letters(inputs, known, value, &mut bits))?;
        Ok(LetterSet { bits })
    }

    /// The letters that are in one of the two, or in both; `|` is the same.
    #[must_use]
    pub const fn union(self, other: LetterSet) -> LetterSet {
        LetterSet { bits: self.bits | other.bits }
    }

    /// Whether a letter is in it.
    pub const fn contains(self, letter: u8) -> bool {
        letter < 64 && self.bits >> letter & 1 == 1
    }

    /// Its letters, the lowest first.
    pub fn letters(self) -> impl Iterator<Item = u8> {
        (0..64).filter(move |&letter| self.contains(letter))
    }
}

impl From<u64> for LetterSet {
    fn from(bits: u64) -> LetterSet {
        LetterSet { bits }
    }
}

impl BitOr for LetterSet {
    type Output = LetterSet;

    fn bitor(self, other: LetterSet) -> LetterSet {
        self.union(other)
    }
}

impl BitOrAssign for LetterSet {
    fn bitor_assign(&mut self, other: LetterSet) {
        *self = self.union(other);
    }
}

/// The letters in braces.
impl fmt::Debug for LetterSet {
    fn fmt(&self, out: &mut fmt::Formatter) -> fmt::Result {
        out.debug_set().entries(self.letters()).finish()
    }
}

#[cfg(test)]
mod tests {
    use super::*;

    #[test]
    fn members() {
        let set = LetterSet::from(1 << 63 | 0b101);
        assert!(set.letters().eq([0, 2, 63]));
        for letter in 0..=255 {
            assert_eq!(set.contains(letter), [0, 2, 63].contains(&letter), "{letter}");
        }
        assert!(LetterSet::from_bits(u64::MAX).letters().eq(0..64));
        assert_eq!(LetterSet::from_bits(0).letters().next(), None);
        assert_eq!(format!("{set:?} {:?}", LetterSet::from_bits(0)), "{0, 2, 63} {}");
    }

    #[test]
    fn unions() {
        let (left, right) = (LetterSet::from_bits(0b0011), LetterSet::from_bits(0b1010));
        let mut joined = left;
        joined |= right;
        assert_eq!([left | right, left.union(right), joined], [LetterSet::from_bits(0b1011); 3]);
    }

    #[test]
    fn masks() {
        let bits = |inputs, known, value| LetterSet::from_masks(inputs, known, value).map(LetterSet::bits);
        assert_eq!(bits(2, 0, 0), Ok(0b1111));
        assert_eq!(bits(2, 0b10, 0b10), Ok(0b1100));
        assert_eq!(bits(1, 1, 0), Ok(0b01));
        assert_eq!(bits(6, 0, 0), Ok(u64::MAX));
        assert_eq!(bits(6, 63, 63), Ok(1 << 63));
        for inputs in [0, 7, 8, 64, 255] {
            assert_eq!(bits(inputs, 0, 0), Err(Refusal::Counts));
            assert_eq!(bits(inputs, 0, 1), Err(Refusal::Counts));
        }
        for (known, value) in [(4, 0), (0, 1), (1, 3), (255, 255), (0, 128)] {
            assert_eq!(bits(2, known, value), Err(Refusal::Letter));
        }
    }
}

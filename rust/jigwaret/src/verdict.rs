//! What is known of the outputs in a round.

use crate::number::UnknownNumber;
use std::array;
use std::fmt;
use std::iter::Take;
use std::ops::Deref;
use std::slice;

/// What is known of an output in a round.
#[derive(Clone, Copy, Debug, PartialEq, Eq, Hash)]
#[repr(u32)]
pub enum Verdict {
    /// False in every completion.
    False = 0,
    /// True in every completion.
    True,
    /// True in one completion, false in another.
    Open,
    /// There is no completion: what was heard and the assumption can't both be right.
    Broken,
}

impl Verdict {
    /// The number that the library gives.
    pub fn number(self) -> u32 {
        self as u32
    }

    /// From what the library wrote.
    pub(crate) fn of_number(number: u32) -> Verdict {
        number.try_into().expect("the library writes numbers of verdicts")
    }

    /// `0`, `1`, `?` or `!`.
    pub fn mark(self) -> char {
        ['0', '1', '?', '!'][self as usize]
    }
}

impl TryFrom<u32> for Verdict {
    type Error = UnknownNumber;

    fn try_from(number: u32) -> Result<Verdict, UnknownNumber> {
        match number {
            0 => Ok(Verdict::False),
            1 => Ok(Verdict::True),
            2 => Ok(Verdict::Open),
            3 => Ok(Verdict::Broken),
            _ => Err(UnknownNumber(number)),
        }
    }
}

impl TryFrom<u8> for Verdict {
    type Error = UnknownNumber;

    fn try_from(number: u8) -> Result<Verdict, UnknownNumber> {
        u32::from(number).try_into()
    }
}

impl fmt::Display for Verdict {
    fn fmt(&self, out: &mut fmt::Formatter) -> fmt::Result {
        write!(out, "{}", self.mark())
    }
}

/// The most outputs of a sheet.
const MAX_OUTPUTS: usize = 7;

/// The verdicts on all outputs in one round, output 0 first. It is used as the slice of them.
#[derive(Clone, Copy, PartialEq, Eq, Hash)]
pub struct Verdicts {
    /// False at and beyond `outputs`.
    all: [Verdict; MAX_OUTPUTS],
    outputs: usize,
}

impl Verdicts {
    /// From what the library wrote for a sheet's outputs.
    pub(crate) fn of_numbers(numbers: &[u32]) -> Verdicts {
        let mut all = [Verdict::False; MAX_OUTPUTS];
        for (verdict, &number) in all.iter_mut().zip(numbers) {
            *verdict = Verdict::of_number(number);
        }
        Verdicts { all, outputs: numbers.len() }
    }
}

impl Deref for Verdicts {
    type Target = [Verdict];

    fn deref(&self) -> &[Verdict] {
        &self.all[..self.outputs]
    }
}

impl AsRef<[Verdict]> for Verdicts {
    fn as_ref(&self) -> &[Verdict] {
        self
    }
}

impl IntoIterator for Verdicts {
    type Item = Verdict;
    type IntoIter = Take<array::IntoIter<Verdict, MAX_OUTPUTS>>;

    fn into_iter(self) -> Self::IntoIter {
        self.all.into_iter().take(self.outputs)
    }
}

impl<'a> IntoIterator for &'a Verdicts {
    type Item = &'a Verdict;
    type IntoIter = slice::Iter<'a, Verdict>;

    fn into_iter(self) -> Self::IntoIter {
        self.iter()
    }
}

impl PartialEq<[Verdict]> for Verdicts {
    fn eq(&self, other: &[Verdict]) -> bool {
        **self == *other
    }
}

impl<const N: usize> PartialEq<[Verdict; N]> for Verdicts {
    fn eq(&self, other: &[Verdict; N]) -> bool {
        **self == *other
    }
}

impl fmt::Debug for Verdicts {
    fn fmt(&self, out: &mut fmt::Formatter) -> fmt::Result {
        out.debug_list().entries(self).finish()
    }
}

/// One mark for each output.
impl fmt::Display for Verdicts {
    fn fmt(&self, out: &mut fmt::Formatter) -> fmt::Result {
        self.iter().try_for_each(|verdict| write!(out, "{verdict}"))
    }
}

#[cfg(test)]
mod tests {
    use super::*;

    #[test]
    fn numbers() {
        for number in 0..=3u8 {
            assert_eq!(Verdict::try_from(number).unwrap().number(), u32::from(number));
        }
        for number in [4, 255, 256, u32::MAX] {
            assert_eq!(Verdict::try_from(number), Err(UnknownNumber(number)));
        }
    }

    #[test]
    fn as_a_list() {
        let verdicts = Verdicts::of_numbers(&[2, 1, 0, 3]);
        let listed = [Verdict::Open, Verdict::True, Verdict::False, Verdict::Broken];
        assert_eq!(verdicts, listed);
        assert_eq!(verdicts, listed[..]);
        assert_eq!(
            (verdicts.len(), verdicts[1], verdicts.get(3), verdicts.get(4)),
            (4, listed[1], listed.get(3), None)
        );
        assert!(verdicts.into_iter().eq(listed) && (&verdicts).into_iter().eq(&listed) && verdicts.iter().eq(&listed));
        assert_eq!(verdicts.as_ref(), listed);
        assert_ne!(verdicts, Verdicts::of_numbers(&[2, 1, 0, 3, 0]));
        assert_eq!(format!("{verdicts} {verdicts:?}"), "?10! [Open, True, False, Broken]");
    }
}

//! Rule sheets, and the values of whole traces.

use crate::heard::Heard;
use crate::letters::LetterSet;
use crate::raw;
use crate::refusal::Refusal;

/// Whether a sheet is accepted.
pub fn check(sheet: &[u8]) -> Result<(), Refusal> {
    Refusal::outcome(raw::check(sheet))
}

/// Writes for each letter the byte whose bit k is output k. Bytes of `out` after those keep their
/// contents.
pub fn evaluate(sheet: &[u8], letters: &[u8], out: &mut [u8]) -> Result<(), Refusal> {
    Refusal::outcome(raw::evaluate(sheet, letters, out))
}

/// The bytes of a sheet that was accepted, of version 1 or 2.
#[derive(Clone, Debug, PartialEq, Eq)]
pub struct Sheet {
    bytes: Vec<u8>,
}

impl Sheet {
    /// The most letters of an evaluation.
    pub const MAX_LETTERS: usize = 4096;

    /// Checks the bytes and keeps them.
    pub fn new(bytes: impl Into<Vec<u8>>) -> Result<Sheet, Refusal> {
        let bytes = bytes.into();
        check(&bytes)?;
        Ok(Sheet { bytes })
    }

    /// The bytes, as they were accepted.
    pub fn bytes(&self) -> &[u8] {
        &self.bytes
    }

    /// How many inputs it has, 1 to 6.
    pub fn inputs(&self) -> usize {
        self.bytes[5] as usize
    }

    /// How many outputs it has, 1 to 7.
    pub fn outputs(&self) -> usize {
        self.bytes[6] as usize
    }

    /// The number of the output that is assumed to be true in every round.
    pub fn assumption(&self) -> Option<usize> {
        Some(self.bytes[7] as usize).filter(|&output| output < self.outputs())
    }

    /// The letters that agree with what was heard.
    pub fn letters(&self, heard: Heard) -> Result<LetterSet, Refusal> {
        heard.letters(self.bytes[5])
    }

    /// For each letter the byte whose bit k is output k. The assumption is not enforced.
    pub fn evaluate(&self, letters: &[u8]) -> Result<Vec<u8>, Refusal> {
        let mut out = vec![0; letters.len()];
        evaluate(&self.bytes, letters, &mut out)?;
        Ok(out)
    }
}

#[cfg(test)]
mod tests {
    use super::*;

    const SESSION: &[u8] = include_bytes!("../../../examples/session/sheet.slr");

    #[test]
    fn parts_of_a_sheet() {
        let sheet = Sheet::new(SESSION).unwrap();
        assert_eq!((sheet.inputs(), sheet.outputs(), sheet.assumption()), (2, 2, Some(1)));
        let plain = Sheet::new(*b"SLR\x01\x00\x01\x01\xFF\x01\x40").unwrap();
        assert_eq!((plain.inputs(), plain.outputs(), plain.assumption()), (1, 1, None));
    }

    #[test]
    fn refused_sheets() {
        assert_eq!(check(b""), Err(Refusal::Short));
        assert_eq!(check(b"SLX\x01\x00\x01\x01\xFF\x01\x40"), Err(Refusal::Mark));
        assert_eq!(Sheet::new(*b"SLR\x01\x00\x01\x01\xFF\x01\x41"), Err(Refusal::Circular));
    }

    #[test]
    fn letters_of_what_was_heard() {
        let sheet = Sheet::new(SESSION).unwrap();
        let heard = Heard::nothing().with(1, false);
        assert_eq!(sheet.letters(heard), Ok(LetterSet::from_bits(0b0011)));
        for input in [2, 5, 6, 7, 8, usize::MAX] {
            assert_eq!(sheet.letters(heard.with(input, true)), Err(Refusal::Letter));
        }
    }

    #[test]
    fn whole_traces() {
        let sheet = Sheet::new(SESSION).unwrap();
        assert_eq!(sheet.evaluate(&[1, 2, 0]), Ok(vec![3, 3, 3]));
        assert_eq!(sheet.evaluate(&[1]), Ok(vec![2]));
        assert_eq!(sheet.evaluate(&[]), Err(Refusal::Extent));
        assert_eq!(sheet.evaluate(&[0; Sheet::MAX_LETTERS]), Ok(vec![3; Sheet::MAX_LETTERS]));
        assert_eq!(sheet.evaluate(&[0; Sheet::MAX_LETTERS + 1]), Err(Refusal::Extent));
        assert_eq!(sheet.evaluate(&[4]), Err(Refusal::Letter));
        let mut longer = [9; 3];
        assert_eq!(evaluate(SESSION, &[1, 2], &mut longer), Ok(()));
        assert_eq!(longer, [3, 3, 9]);
        assert_eq!(evaluate(SESSION, &[1, 2], &mut longer[..1]), Err(Refusal::Extent));
    }
}

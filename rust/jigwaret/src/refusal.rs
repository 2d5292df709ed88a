//! Why a call was turned down.

use crate::number::UnknownNumber;
use crate::raw;
use std::error::Error;
use std::fmt;

/// The refusals, each with its number and its text.
macro_rules! refusals {
    ($($name:ident = $number:literal, $text:literal;)*) => {
        /// The rule that a call breaks first; its number is the case's number.
        #[derive(Clone, Copy, Debug, PartialEq, Eq, Hash)]
        #[non_exhaustive]
        #[repr(u32)]
        pub enum Refusal {
            $(#[doc = concat!(stringify!($number), ": ", $text, ".")] $name = $number,)*
        }

        impl Refusal {
            /// What is wrong; `jigwaret_text` says the same in C.
            pub fn text(self) -> &'static str {
                match self {
                    $(Refusal::$name => $text,)*
                }
            }
        }

        impl TryFrom<u32> for Refusal {
            type Error = UnknownNumber;

            fn try_from(number: u32) -> Result<Refusal, UnknownNumber> {
                match number {
                    $($number => Ok(Refusal::$name),)*
                    _ => Err(UnknownNumber(number)),
                }
            }
        }
    };
}

refusals! {
    Short = 1, "the sheet has fewer than 8 bytes";
    Mark = 2, "the sheet does not begin with SLR";
    Version = 3, "the version is neither 1 nor 2";
    Counts = 4, "inputs, outputs or their sum are out of range";
    Assumption = 5, "the assumption is neither an output nor 255";
    Length = 6, "a length is missing, 0, over 64, or goes past the end";
    Byte = 7, "a byte is unknown, or names a stream that the sheet lacks";
    Values = 8, "an operator lacks a value, or an expression does not leave exactly one";
    Leftover = 9, "bytes are left over";
    Circular = 10, "some value reaches itself";
    Letter = 11, "a known bit or a letter lies beyond the inputs, or a value bit is not known";
    Closed = 12, "the journal is closed";
    Full = 13, "the journal holds 1,000,000 rounds";
    NoRound = 14, "a closing with no round";
    Storage = 15, "the storage is too short";
    Extent = 16, "no letters, over 4,096, or a buffer that is too small";
    Line = 17, "a line of the program's input is malformed";
    Record = 18, "the record is not one of a journal";
    RoundSet = 21, "a round's set of letters is empty or has a letter beyond the inputs";
    OutputSet = 24, "a set of outputs names one that the sheet lacks";
}

impl Refusal {
    /// The number that the library and the program give.
    pub fn number(self) -> u32 {
        self as u32
    }

    /// What a function of the library returned, as a result.
    pub(crate) fn outcome(number: u32) -> Result<(), Refusal> {
        match number {
            raw::ACCEPTED => Ok(()),
            _ => Err(number.try_into().expect("record and answer have their sizes here, so it is a rule's number")),
        }
    }
}

impl TryFrom<u8> for Refusal {
    type Error = UnknownNumber;

    fn try_from(number: u8) -> Result<Refusal, UnknownNumber> {
        u32::from(number).try_into()
    }
}

impl fmt::Display for Refusal {
    fn fmt(&self, out: &mut fmt::Formatter) -> fmt::Result {
        write!(out, "refused {}: {}", self.number(), self.text())
    }
}

impl Error for Refusal {}

#[cfg(test)]
mod tests {
    use super::*;

    #[test]
    fn numbers() {
        assert_eq!(Refusal::outcome(0), Ok(()));
        for number in (1..=18u8).chain([21, 24]) {
            let refusal = Refusal::try_from(number).unwrap();
            assert_eq!(refusal.number(), u32::from(number));
            assert_eq!(Refusal::outcome(refusal.number()), Err(refusal));
        }
        let of_sets = [Refusal::Letter, Refusal::RoundSet, Refusal::OutputSet];
        assert_eq!(of_sets.map(Refusal::number), [11, 21, 24]);
        for number in [0, 19, 20, 22, 23, 25, raw::WRONG_SIZES, 256 + 1, 256 + 24, u32::MAX] {
            assert_eq!(Refusal::try_from(number), Err(UnknownNumber(number)));
        }
    }

    #[test]
    fn printed() {
        assert_eq!(Refusal::Closed.to_string(), "refused 12: the journal is closed");
        assert_eq!(UnknownNumber(19).to_string(), "nothing has the number 19");
    }
}

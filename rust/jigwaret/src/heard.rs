//! What was heard in a round, input by input.

use crate::letters::LetterSet;
use crate::refusal::Refusal;

/// What was heard in a round, input by input. It stands for the letters that agree with it.
///
/// ```
/// use jigwaret::{Heard, LetterSet};
///
/// let heard = Heard::nothing().with(0, true).with(2, false);
/// assert_eq!(heard.letters(3)?, LetterSet::from_masks(3, 0b101, 0b001)?);
/// # Ok::<(), jigwaret::Refusal>(())
/// ```
#[derive(Clone, Copy, Debug, Default, PartialEq, Eq, Hash)]
pub struct Heard {
    /// Bit i says that input i was heard.
    known: u8,
    /// Bit i says what was heard of input i.
    value: u8,
}

impl Heard {
    /// No input was heard.
    pub fn nothing() -> Heard {
        Heard::default()
    }

    /// Input `input` was heard, with this value; what was said of it before is replaced. An input that a
    /// sheet lacks is refused when letters are made of it, whatever its number.
    #[must_use]
    pub fn with(mut self, input: usize, value: bool) -> Heard {
        // No sheet has more than six inputs, so bit 7 stands for all that have no bit of their own.
        let bit = 1 << input.min(7);
        self.known |= bit;
        self.value = if value { self.value | bit } else { self.value & !bit };
        self
    }

    /// The letters that agree with it, for a sheet with so many inputs.
    /// [`Sheet::letters`](crate::Sheet::letters) knows that number.
    pub fn letters(self, inputs: u8) -> Result<LetterSet, Refusal> {
        LetterSet::from_masks(inputs, self.known, self.value)
    }
}

#[cfg(test)]
mod tests {
    use super::*;

    #[test]
    fn input_by_input() {
        let heard = Heard::nothing().with(5, true).with(0, false);
        assert_eq!(heard, Heard { known: 0b100001, value: 0b100000 });
        assert_eq!(heard.with(5, false).with(0, true), Heard { known: 0b100001, value: 0b000001 });
        assert_eq!(Heard::nothing(), Heard { known: 0, value: 0 });
    }

    #[test]
    fn inputs_without_a_bit() {
        for input in [7, 8, 64, usize::MAX] {
            let heard = Heard::nothing().with(input, false);
            assert_eq!(heard, Heard { known: 0x80, value: 0 });
            assert_eq!(heard.letters(6), Err(Refusal::Letter));
        }
    }

    #[test]
    fn letters() {
        let bits = |heard: Heard, inputs| heard.letters(inputs).map(LetterSet::bits);
        assert_eq!(bits(Heard::nothing(), 2), Ok(0b1111));
        assert_eq!(bits(Heard::nothing().with(1, true), 2), Ok(0b1100));
        assert_eq!(bits(Heard::nothing().with(1, true), 1), Err(Refusal::Letter));
        assert_eq!(bits(Heard::nothing().with(1, true), 7), Err(Refusal::Counts));
    }
}

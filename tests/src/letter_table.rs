//! The table of letter sets, by the sentence that fixes it: an index has six base-3 digits, that of input 0
//! lowest, and a letter is in the entry if it matches all six.

use std::array;

/// As many as there are choices of six digits.
pub const ENTRIES: usize = 729;
/// The digit of an input that was not heard. Else it is the value that was.
const UNKNOWN: usize = 2;

/// The six lowest digits of a number, the lowest first.
fn digits(number: usize, base: usize) -> [usize; 6] {
    array::from_fn(|place| number / base.pow(place as u32) % base)
}

fn matches(letter: usize, index: usize) -> bool {
    let mut pairs = digits(letter, 2).into_iter().zip(digits(index, 3));
    pairs.all(|(value, digit)| digit == UNKNOWN || digit == value)
}

/// The set with this index as a number, to which each of its letters j adds 2^j.
pub fn entry(index: usize) -> u64 {
    (0..64).filter(|&letter| matches(letter, index)).map(|letter| 2u64.pow(letter as u32)).sum()
}

pub fn entries() -> Vec<u64> {
    (0..ENTRIES).map(entry).collect()
}

/// What the program `letter_sets` prints.
pub fn text() -> String {
    entries().iter().map(|entry| format!("{entry}\n")).collect()
}

/// How many indexes the alternatives of so many inputs have. They are the lowest ones.
pub fn indexes(inputs: usize) -> usize {
    3usize.pow(inputs as u32)
}

/// The alternative of so many inputs with this index, input 0 first.
pub fn marks(inputs: usize, index: usize) -> String {
    assert!(index < indexes(inputs));
    digits(index, 3)[..inputs].iter().map(|&digit| ['0', '1', '?'][digit]).collect()
}

/// The index of an alternative. Inputs that it has no mark for take digit 0.
pub fn index(marks: &str) -> usize {
    let digit = |mark| "01?".find(mark).expect("a mark");
    marks.chars().enumerate().map(|(input, mark)| digit(mark) * indexes(input)).sum()
}

#[cfg(test)]
mod tests {
    use super::*;
    use crate::journal::{call_of_line, round};
    use std::collections::BTreeSet;

    #[test]
    fn entries_by_hand() {
        assert_eq!(entries()[..9], [1, 2, 3, 4, 8, 12, 5, 10, 15]);
        assert_eq!([26, 27, 80, 81, 242, 243].map(entry), [0xFF, 1 << 8, 0xFFFF, 1 << 16, 0xFFFF_FFFF, 1 << 32]);
        // Input 0 was 1 and input 5 not heard, and then the other way round.
        assert_eq!([1 + 2 * 243, 2 + 243].map(entry), [1 << 1 | 1 << 33, 1 << 32 | 1 << 33]);
        let text = text();
        assert!(text.starts_with("1\n2\n3\n4\n8\n12\n5\n10\n15\n16\n") && text.ends_with("\n18446744073709551615\n"));
        assert_eq!(text.lines().count(), 729);
    }

    /// No two entries are alike, and each has twice as many letters for each input that was not heard.
    #[test]
    fn letters_of_entries() {
        assert_eq!(BTreeSet::from_iter(entries()).len(), ENTRIES);
        assert_eq!([0, 728].map(entry), [1, u64::MAX]);
        for index in 0..ENTRIES {
            let unknown = marks(6, index).matches('?').count();
            assert_eq!(entry(index).count_ones(), 1 << unknown, "entry {index}");
        }
    }

    #[test]
    fn indexes_by_hand() {
        assert_eq!(["0", "1", "?", "00", "1?", "?1", "??"].map(index), [0, 1, 2, 0, 7, 5, 8]);
        assert_eq!(["100000", "000001", "00000?", "??????"].map(index), [1, 243, 486, 728]);
        assert_eq!([marks(2, 7), marks(6, 243)], ["1?", "000001"]);
    }

    /// An index is that of the same marks with `0` behind them. Its entry has the letters that fit a line with
    /// these marks, and no other.
    #[test]
    fn alternatives_of_fewer_inputs() {
        for inputs in 1..=6 {
            for place in 0..indexes(inputs) {
                let marks = marks(inputs, place);
                assert_eq!(index(&marks), place, "{marks}");
                assert_eq!(index(&format!("{marks:0<6}")), place, "{marks}");
                assert_eq!(call_of_line(&marks), round(entry(place)), "{marks}");
            }
        }
    }
}

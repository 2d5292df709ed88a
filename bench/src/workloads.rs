//! Sheets and journals to time.

use outside::cases::{assuming, bytes, counter, register, session_sheet};
use outside::circular;
use outside::journal::Book;
use outside::letters::{Heard, LetterSet};
use outside::monitor::Monitor;
use outside::random::{self, Random};
use outside::sheet::{byte_of_read, write, write_version, NO_ASSUMPTION};
use outside::versions;

/// A sheet with the length of the journals that are timed on it.
pub struct Workload {
    pub name: &'static str,
    pub sheet: Vec<u8>,
    pub rounds: usize,
}

/// What is not heard in a journal's rounds.
#[derive(Clone, Copy)]
pub enum Unheard {
    /// About so many of a hundred inputs.
    Share(usize),
    /// Input 0, always.
    First,
    /// Which of several alternatives it was, in each of which about 30 of 100 inputs are not heard. No
    /// masks make such a round.
    Alternative,
}

impl Unheard {
    pub fn name(self) -> String {
        match self {
            Unheard::Share(share) => format!("{share} %"),
            Unheard::First => "input 0".to_string(),
            Unheard::Alternative => "which alternative".to_string(),
        }
    }

    /// The alternatives of a round with this letter.
    fn alternatives(self, random: &mut Random, letter: u8, inputs: usize) -> Vec<Heard> {
        match self {
            Unheard::Share(share) => vec![random.heard_of(letter, inputs, share)],
            Unheard::First => {
                let Heard { known, value } = random.heard_of(letter, inputs, 0);
                vec![Heard { known: known & !1, value: value & !1 }]
            }
            Unheard::Alternative => loop {
                let mut several = vec![random.heard_of(letter, inputs, 30)];
                let others = random.range(1, 3);
                several.extend((0..others).map(|_| random.heard(inputs, 30)));
                if !made_by_masks(union(&several, inputs)) {
                    return several;
                }
            },
        }
    }
}

/// The set of a round with these alternatives.
fn union(alternatives: &[Heard], inputs: usize) -> u64 {
    alternatives.iter().fold(0, |set, heard| set | heard.set(inputs).0)
}

/// Whether some masks make this set. The narrowest masks that all its letters agree with leave open the
/// inputs in which two of them differ.
fn made_by_masks(set: u64) -> bool {
    let letters = (0..64u32).filter(|letter| set >> letter & 1 == 1);
    let (common, any) = letters.fold((63, 0), |(common, any), letter| (common & letter, any | letter));
    set.count_ones() == 1 << (common ^ any).count_ones()
}

pub fn journals() -> Vec<Workload> {
    let workload = |name, sheet, rounds| Workload { name, sheet, rounds };
    vec![
        workload("session", session_sheet(), 1000),
        workload("formula", formula(), 300),
        workload("count ahead", count_ahead(), 200),
        workload("counter", counter(), 100),
        workload("register", register(), 60),
        workload("dense, 4 inputs", dense(4, 4), 20),
        workload("dense, 6 inputs", dense(6, 2), 20),
        workload("comparisons", comparisons(), 60),
    ]
}

/// The rounds of the whole traces that are timed.
pub const TRACE_LENGTHS: [usize; 2] = [1024, 4096];

pub fn traces() -> Vec<Workload> {
    let workload = |name, sheet| Workload { name, sheet, rounds: 4096 };
    vec![
        workload("session", session_sheet()),
        workload("formula", formula()),
        workload("count ahead", count_ahead()),
        workload("by turns", random::turns()),
        workload("ring of 3", random::ring(&[1, 0, 2], &[1, -1, -1])),
        workload("ring of 7", random::ring(&[3, 0, 5, 1, 6, 2, 4], &[1, 1, 1, -1, -1, -1, -1])),
        workload("dense, 4 inputs", dense(4, 4)),
        workload("dense, 6 inputs", dense(6, 2)),
        workload("comparisons", comparisons()),
    ]
}

/// Source document 004, section 5: p and always, where p turns true next, there was a start of
/// q; p; p; p; (not q)*; q. Inputs p and q; the assumption is that one of them is true.
///
/// Output 0 is the formula. The others: q is true in a later round; p is true now and q was one round
/// earlier; a match has begun two rounds ago or before; from now on p does not turn true unless a
/// match has begun by the round before.
pub fn formula() -> Vec<u8> {
    let expressions =
        ["40 6E 03", "61 63 04", "40 51 03", "54 40 03 60 03 63 03 55 04", "58 40 02 04 65 04 45 04 6E 03", "40 41 04"];
    assuming(2, 5, &expressions)
}

/// Six outputs that count, from the end, the rounds after this one in which the input is true.
pub fn count_ahead() -> Vec<u8> {
    let later = |stream: usize| byte_of_read(stream, 1, false);
    let expression = |output: usize| {
        let mut carry: Vec<u8> = (0..=output).map(later).collect();
        carry.extend(vec![0x03; output]);
        differs(later(1 + output), &carry)
    };
    let expressions: Vec<Vec<u8>> = (0..6).map(expression).collect();
    write(1, NO_ASSUMPTION, &expressions)
}

/// A read differs from an expression.
fn differs(read: u8, other: &[u8]) -> Vec<u8> {
    [&[read], other, &bytes("02 03"), &[read, 0x02], other, &bytes("03 04")].concat()
}

/// Inputs tell which of two prices the till, the label on the shelf, the label on the rail and the
/// scanner have.
///
/// Output 0: the three others have the till's price of this round or of the one before. Output 1:
/// nothing has changed since the round before, output 0 included. Output 2: what has the till's price
/// has it one round later as well. Output 3: the three others agree until outputs 0 and 2 do.
const COMPARISONS: [&str; 4] = [
    "41 40 05 41 50 05 04 42 40 05 42 50 05 04 03 43 40 05 43 50 05 04 03",
    "40 50 05 41 51 05 03 42 52 05 03 43 53 05 03 44 5C 05 03",
    "41 40 05 02 61 60 05 04 42 40 05 02 62 60 05 04 03 43 40 05 02 63 60 05 04 03",
    "41 42 05 42 43 05 03 67 03 44 46 05 04",
];

/// A version 2 sheet of comparisons.
pub fn comparisons() -> Vec<u8> {
    write_version(2, 4, NO_ASSUMPTION, &COMPARISONS.map(bytes))
}

/// The same rule in version 1.
pub fn comparisons_written_out() -> Vec<u8> {
    versions::written_out(&comparisons()).expect("at most 64 bytes for each output")
}

/// Expressions of 64 bytes; of 40 such sheets the one with the most live pairs.
pub fn dense(inputs: usize, outputs: usize) -> Vec<u8> {
    let mut random = Random::new(11);
    let sheets = (0..40).map(|_| random::dense(&mut random, inputs, outputs));
    sheets.max_by_key(|sheet| live_pairs(sheet)).expect("several sheets")
}

fn live_pairs(sheet: &[u8]) -> u32 {
    use crate::fast::{entries::Journal, Sheet};
    Journal::prepare(Sheet::accept(sheet).expect("made to be accepted")).live_pairs
}

/// Rounds of a journal that keeps to the assumption, as sets of letters.
pub fn rounds(workload: &Workload, monitor: &Monitor, unheard: Unheard) -> Vec<u64> {
    let mut random = Random::new(7);
    let inputs = monitor.sheet.inputs;
    // The formula's letters are drawn before anything else.
    let count = if workload.sheet == formula() { workload.rounds } else { 0 };
    let formula_letters: Vec<u8> = (0..count).map(|_| formula_letter(&mut random)).collect();
    let mut book = Book::new(monitor);
    let mut round = |t: usize| {
        let letter = match formula_letters.get(t) {
            Some(&letter) => letter,
            None if monitor.sheet.assumption.is_some() => random.letter_along(&book),
            None => random.below(1 << inputs) as u8,
        };
        let letters = union(&unheard.alternatives(&mut random, letter, inputs), inputs);
        book.round(LetterSet(letters)).expect("a round of the sheet");
        letters
    };
    (0..workload.rounds).map(&mut round).collect()
}

/// As document 004 draws them: q in 66 of 100 rounds; p where q is false, and else in every second.
fn formula_letter(random: &mut Random) -> u8 {
    let q = random.below(100) < 66;
    let p = !q || random.one_in(2);
    p as u8 | (q as u8) << 1
}

/// Lines of a journal of the session sheet that keeps to its assumption, about so many of a hundred blank.
pub fn session_lines(random: &mut Random, rounds: usize, unheard: Unheard, blank: usize) -> String {
    let mut sent_before = false;
    let mut line = |_| {
        let sent = random.one_in(2);
        let acknowledged = (sent || sent_before) && random.one_in(2);
        sent_before = sent;
        // A journal without any is drawn as if there were no such lines.
        if blank > 0 && random.below(100) < blank {
            return "\n".to_string();
        }
        let alternatives = unheard.alternatives(random, sent as u8 | (acknowledged as u8) << 1, 2);
        let marks: Vec<String> = alternatives.iter().map(|heard| heard.marks(2)).collect();
        marks.join("|") + "\n"
    };
    (0..rounds).map(&mut line).collect()
}

/// Masks of rounds in which about 30 of 100 inputs are not heard.
pub fn masks(inputs: u8, rounds: usize) -> Vec<Heard> {
    let mut random = Random::new(9);
    (0..rounds).map(|_| random.heard(inputs as usize, 30)).collect()
}

/// Letters of a whole trace.
pub fn letters(workload: &Workload, rounds: usize) -> Vec<u8> {
    let sheet = circular::accept(&workload.sheet).expect("made to be accepted");
    Random::new(5).letters(sheet.inputs, rounds)
}

#[cfg(test)]
mod tests {
    use super::*;
    use outside::language;

    /// The formula by its definition.
    fn formula_at(letters: &[u8], i: usize) -> bool {
        let p = |t: usize| letters.get(t).is_some_and(|letter| letter & 1 == 1);
        let q = |t: usize| letters.get(t).is_some_and(|letter| letter & 2 == 2);
        let starts = |j: usize| q(j) && p(j + 1) && p(j + 2) && p(j + 3) && (j + 4..letters.len()).any(q);
        p(i) && (i..letters.len()).all(|t| p(t) || !p(t + 1) || (0..=t).any(starts))
    }

    #[test]
    fn the_formula_is_output_0() {
        let mut random = Random::new(911);
        let sheet = formula();
        let mut seen = [0; 2];
        for _ in 0..3000 {
            let rounds = random.range(1, 16);
            let letters = random.letters(2, rounds);
            let outputs = language::evaluate(&sheet, &letters, rounds).unwrap();
            for (i, byte) in outputs.iter().enumerate() {
                assert_eq!(byte & 1 == 1, formula_at(&letters, i), "{letters:?} at {i}");
                seen[(byte & 1) as usize] += 1;
            }
        }
        assert!(seen.iter().all(|&times| times > 3000), "{seen:?}");
    }

    #[test]
    fn rounds_are_counted_from_the_end() {
        let letters = Random::new(912).letters(1, 200);
        let outputs = language::evaluate(&count_ahead(), &letters, 200).unwrap();
        for (t, byte) in outputs.iter().enumerate() {
            let after = letters[t + 1..].iter().filter(|&&letter| letter == 1).count();
            assert_eq!(*byte as usize, after % 64);
        }
    }

    /// The outputs of the comparisons by their definitions.
    fn compared_at(letters: &[u8], i: usize) -> [bool; 4] {
        let price = |t: usize, input: usize| letters.get(t).is_some_and(|letter| letter >> input & 1 == 1);
        let before = |t: usize, input: usize| t > 0 && price(t - 1, input);
        let right = |t: usize, input: usize| price(t, input) == price(t, 0);
        let in_time = |t: usize| (1..4).all(|input| right(t, input) || price(t, input) == before(t, 0));
        let kept = |t: usize| (1..4).all(|input| !right(t, input) || right(t + 1, input));
        let agree = |t: usize| price(t, 1) == price(t, 2) && price(t, 2) == price(t, 3);
        let unchanged = (0..4).all(|input| price(i, input) == before(i, input));
        let until = (i..letters.len()).find(|&t| in_time(t) == kept(t));
        [
            in_time(i),
            unchanged && in_time(i) == (i == 0 || in_time(i - 1)),
            kept(i),
            until.is_some_and(|end| (i..end).all(agree)),
        ]
    }

    #[test]
    fn comparisons_by_their_definitions() {
        let mut random = Random::new(913);
        let mut seen = [[0; 2]; 4];
        for _ in 0..3000 {
            let rounds = random.range(1, 16);
            let letters = random.letters(4, rounds);
            let outputs = language::evaluate(&comparisons(), &letters, rounds).unwrap();
            for (i, byte) in outputs.iter().enumerate() {
                let found = [0, 1, 2, 3].map(|k| byte >> k & 1 == 1);
                assert_eq!(found, compared_at(&letters, i), "{letters:?} at {i}");
                (0..4).for_each(|k| seen[k][found[k] as usize] += 1);
            }
        }
        assert!(seen.iter().flatten().all(|&times| times > 300), "{seen:?}");
    }

    #[test]
    fn deep_and_dense() {
        assert!(Monitor::new(&register()).unwrap().reach >= 128);
        for (inputs, outputs) in [(4, 4), (6, 2)] {
            assert_eq!(dense(inputs, outputs).len(), 8 + 65 * outputs);
        }
    }

    fn sum(numbers: impl IntoIterator<Item = u64>) -> u64 {
        numbers.into_iter().fold(0, |sum, number| sum.wrapping_mul(31).wrapping_add(number))
    }

    /// Ratios of different runs can be compared as long as these are the same sheets.
    #[test]
    fn dense_sheets_stay() {
        let low = |sheet: Vec<u8>| sum(sheet.into_iter().map(u64::from)) as u32;
        assert_eq!([dense(4, 4), dense(6, 2)].map(low), [2_672_568_262, 3_603_832_850]);
    }

    /// And the same rounds.
    #[test]
    fn rounds_stay() {
        let sums = |workload: &Workload| {
            let monitor = Monitor::new(&workload.sheet).unwrap();
            let heard = [Unheard::Share(0), Unheard::Share(30), Unheard::Share(100)];
            let first = (workload.name == "formula").then_some(Unheard::First);
            heard.into_iter().chain(first).map(|unheard| sum(rounds(workload, &monitor, unheard))).collect::<Vec<_>>()
        };
        assert_eq!(sum(journals().iter().flat_map(sums)), 5_535_617_213_424_295_374);
        let lines = session_lines(&mut Random::new(3), 1_000_000, Unheard::Share(30), 0);
        assert_eq!(sum(lines.bytes().map(u64::from)) as u32, 583_921_052);
    }

    #[test]
    fn sets_that_masks_make() {
        let all: Vec<Heard> = (0..=63).map(|bits| Heard { known: bits >> 3, value: bits & 7 }).collect();
        for inputs in 1..=3 {
            let made: Vec<u64> = all.iter().filter_map(|heard| Some(heard.letters(inputs).ok()?.0)).collect();
            for set in 1..1 << (1 << inputs) {
                assert_eq!(made_by_masks(set), made.contains(&set), "{set:b}");
            }
        }
        assert!(made_by_masks(u64::MAX) && made_by_masks(1 << 63) && !made_by_masks(1 << 63 | 1));
    }

    #[test]
    fn alternatives_of_a_letter() {
        let mut random = Random::new(914);
        for turn in 0..3000 {
            let inputs = 2 + turn % 5;
            let letter = random.below(1 << inputs) as u8;
            let alternatives = Unheard::Alternative.alternatives(&mut random, letter, inputs);
            let set = union(&alternatives, inputs);
            assert!((2..=4).contains(&alternatives.len()) && set >> letter & 1 == 1 && !made_by_masks(set));
        }
    }
}

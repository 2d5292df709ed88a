//! Journals: rounds, questions about several outputs, closing, tallies.

use crate::letters::LetterSet;
use crate::raw::{self, ANSWER_NUMBERS, RECORD_NUMBERS, STORAGE_WORDS};
use crate::refusal::Refusal;
use crate::sheet::Sheet;
use crate::verdict::{Verdict, Verdicts};

/// A journal of a sheet, with the storage and the record that its calls hand on.
#[derive(Clone, Debug)]
pub struct Journal {
    sheet: Sheet,
    storage: Vec<u64>,
    record: [u32; RECORD_NUMBERS],
    live_pairs: usize,
    reach: usize,
}

/// How many rounds had each verdict on an output.
#[derive(Clone, Copy, Debug, PartialEq, Eq)]
pub struct Counts {
    /// Rounds with [`Verdict::True`](crate::Verdict::True).
    pub true_rounds: u32,
    /// Rounds with [`Verdict::False`](crate::Verdict::False).
    pub false_rounds: u32,
    /// Rounds with [`Verdict::Open`](crate::Verdict::Open).
    pub open_rounds: u32,
    /// Rounds with [`Verdict::Broken`](crate::Verdict::Broken).
    pub broken_rounds: u32,
}

/// The answer to a closing.
#[derive(Clone, Debug, PartialEq, Eq)]
pub struct Closing {
    /// The verdicts on the last round if nothing follows it.
    pub verdicts: Verdicts,
    /// For each output the true rounds per thousand, to the nearest, and from half-way between two to the even
    /// one: of 16 rounds 1 is 62 and 3 are 188.
    pub shares: Vec<u32>,
}

impl Journal {
    /// The most rounds of a journal.
    pub const MAX_ROUNDS: u32 = 1_000_000;

    /// An empty journal of a sheet.
    pub fn prepare(sheet: Sheet) -> Result<Journal, Refusal> {
        let mut storage = vec![0; STORAGE_WORDS];
        let mut record = [0; RECORD_NUMBERS];
        let mut answer = [0; ANSWER_NUMBERS];
        Refusal::outcome(raw::prepare(sheet.bytes(), &mut storage, &mut record, &mut answer))?;
        let [live_pairs, reach] = [answer[0] as usize, answer[1] as usize];
        Ok(Journal { sheet, storage, record, live_pairs, reach })
    }

    /// Takes a round: the set of the letters that it may have been. [`Sheet::letters`] makes one of what
    /// was heard.
    pub fn round(&mut self, letters: LetterSet) -> Result<Verdicts, Refusal> {
        let mut answer = [0; ANSWER_NUMBERS];
        let (sheet, bits) = (self.sheet.bytes(), letters.bits());
        Refusal::outcome(raw::round(sheet, &mut self.storage, &mut self.record, bits, &mut answer))?;
        Ok(Verdicts::of_numbers(&answer[..self.sheet.outputs()]))
    }

    /// Whether all outputs of a set are true together in the last round; bit k of `outputs` names output k.
    ///
    /// The verdict is over the completions that the round's verdicts are over. A set of one output has the
    /// verdict that the round gave that output, and the empty set is true, or broken where the round was. Two
    /// outputs may each be open although no completion has both; then the set of both is false:
    ///
    /// ```
    /// use jigwaret::{Heard, Journal, Sheet, Verdict};
    ///
    /// // One input, "the label shows the new price", and two outputs: that it does, and that it doesn't.
    /// let sheet = Sheet::new(*b"SLR\x01\x00\x01\x02\xFF\x01\x40\x02\x40\x02")?;
    /// let unheard = sheet.letters(Heard::nothing())?;
    /// let mut journal = Journal::prepare(sheet)?;
    /// assert_eq!(journal.round(unheard)?, [Verdict::Open, Verdict::Open]);
    /// assert_eq!(journal.together(0b11)?, Verdict::False);
    /// # Ok::<(), jigwaret::Refusal>(())
    /// ```
    pub fn together(&self, outputs: u8) -> Result<Verdict, Refusal> {
        let mut answer = [0; ANSWER_NUMBERS];
        Refusal::outcome(raw::together(self.sheet.bytes(), &self.storage, &self.record, outputs, &mut answer))?;
        Ok(Verdict::of_number(answer[0]))
    }

    /// Closes the journal after its last round.
    pub fn close(&mut self) -> Result<Closing, Refusal> {
        let mut answer = [0; ANSWER_NUMBERS];
        Refusal::outcome(raw::close(self.sheet.bytes(), &self.storage, &mut self.record, &mut answer))?;
        let n = self.sheet.outputs();
        Ok(Closing { verdicts: Verdicts::of_numbers(&answer[..n]), shares: answer[n..2 * n].to_vec() })
    }

    /// The sheet that it was prepared with.
    pub fn sheet(&self) -> &Sheet {
        &self.sheet
    }

    /// How many live pairs the sheet has: a valuation that the assumption allows, and what may follow it
    /// in a trace that keeps the assumption to its end.
    pub fn live_pairs(&self) -> usize {
        self.live_pairs
    }

    /// The most further rounds that any live pair needs to its end. Rounds, at least one, that can be
    /// completed at all can be completed with at most so many more; it is less than [`Journal::live_pairs`].
    pub fn reach(&self) -> usize {
        self.reach
    }

    /// How many rounds were accepted.
    pub fn rounds(&self) -> u32 {
        self.record[0]
    }

    /// Whether a closing was accepted.
    pub fn is_closed(&self) -> bool {
        self.record[1] == 1
    }

    /// How many rounds had each verdict on an output; `None` where the sheet lacks it.
    pub fn counts(&self, output: usize) -> Option<Counts> {
        (output < self.sheet.outputs()).then(|| {
            let at = 2 + 4 * output;
            Counts {
                true_rounds: self.record[at],
                false_rounds: self.record[at + 1],
                open_rounds: self.record[at + 2],
                broken_rounds: self.record[at + 3],
            }
        })
    }
}

#[cfg(test)]
mod tests {
    use super::*;
    use crate::heard::Heard;

    fn session() -> Journal {
        let sheet = Sheet::new(include_bytes!("../../../examples/session/sheet.slr")).unwrap();
        Journal::prepare(sheet).unwrap()
    }

    /// A round of the session's sheet.
    fn masks(known: u8, value: u8) -> LetterSet {
        LetterSet::from_masks(2, known, value).unwrap()
    }

    #[test]
    fn whole_session() {
        let mut journal = session();
        assert_eq!((journal.live_pairs(), journal.reach()), (44, 2));
        assert_eq!((journal.rounds(), journal.is_closed()), (0, false));
        let rounds = [(3, 1, "?1"), (2, 2, "11"), (1, 1, "?1"), (3, 0, "11"), (3, 2, "!!")];
        for (known, value, expected) in rounds {
            assert_eq!(journal.round(masks(known, value)).unwrap().to_string(), expected);
        }
        let closing = journal.close().unwrap();
        assert_eq!(closing.verdicts, [Verdict::Broken; 2]);
        assert_eq!(closing.shares, [400, 800]);
        assert_eq!((journal.rounds(), journal.is_closed()), (5, true));
        let counts = Counts { true_rounds: 2, false_rounds: 0, open_rounds: 2, broken_rounds: 1 };
        assert_eq!(journal.counts(0), Some(counts));
        assert_eq!([2, 6, 7, usize::MAX].map(|output| journal.counts(output)), [None; 4]);
    }

    /// 62 and a half, and 187 and a half, go to the even neighbour.
    #[test]
    fn shares_at_halves() {
        for (true_rounds, expected) in [(1, 62), (3, 188)] {
            let mut journal = session();
            for round in 0..16 {
                // Nothing is sent, which is true, or what no round has acknowledged yet, which is open.
                journal.round(masks(3, if round < true_rounds { 0 } else { 1 })).unwrap();
            }
            let closing = journal.close().unwrap();
            assert_eq!(journal.counts(0).unwrap().true_rounds, true_rounds);
            assert_eq!(closing.shares[0], expected);
        }
    }

    /// Sent and acknowledged, or neither; the masks that have both have every letter.
    #[test]
    fn alternatives() {
        let mut journal = session();
        assert_eq!(journal.round(masks(3, 0) | masks(3, 3)).unwrap().to_string(), "11");
        assert_eq!(journal.round(masks(0, 0)).unwrap().to_string(), "?1");
    }

    /// With one input: output 0 is the input, output 1 its negation, output 2 the input again.
    #[test]
    fn several_outputs_together() {
        let sheet = Sheet::new(*b"SLR\x01\x00\x01\x03\xFF\x01\x40\x02\x40\x02\x01\x40").unwrap();
        let mut journal = Journal::prepare(sheet).unwrap();
        let [no, yes, open] = [Verdict::False, Verdict::True, Verdict::Open];
        // The sets in the order of their numbers, the empty one first.
        let rounds = [
            (0b11, [yes, open, open, no, open, open, no, no]),
            (0b10, [yes, yes, no, no, yes, yes, no, no]),
            (0b01, [yes, no, yes, no, no, no, no, no]),
        ];
        for (letters, expected) in rounds {
            let verdicts = journal.round(LetterSet::from_bits(letters)).unwrap();
            assert_eq!([0, 1, 2, 3, 4, 5, 6, 7].map(|outputs| journal.together(outputs).unwrap()), expected);
            assert_eq!(verdicts, [0b001, 0b010, 0b100].map(|outputs| journal.together(outputs).unwrap()));
        }
    }

    /// Every set is broken once there is no completion.
    #[test]
    fn nothing_together_once_broken() {
        let mut journal = session();
        journal.round(masks(3, 2)).unwrap();
        for outputs in 0..4 {
            assert_eq!(journal.together(outputs), Ok(Verdict::Broken));
        }
    }

    #[test]
    fn refused_questions() {
        let mut journal = session();
        let asked = |journal: &Journal| [0, 0b11, 0b100, 0x80, 0xFF].map(|outputs| journal.together(outputs));
        let (no_round, bad_set, closed) = (Refusal::NoRound, Refusal::OutputSet, Refusal::Closed);
        assert_eq!(asked(&journal), [no_round, no_round, bad_set, bad_set, bad_set].map(Err));
        journal.round(masks(3, 0)).unwrap();
        let [yes, bad_set] = [Ok(Verdict::True), Err(bad_set)];
        assert_eq!(asked(&journal), [yes, yes, bad_set, bad_set, bad_set]);
        journal.close().unwrap();
        assert_eq!(asked(&journal), [Err(closed); 5]);
    }

    #[test]
    fn a_refused_call_changes_nothing() {
        let mut journal = session();
        assert_eq!(journal.close(), Err(Refusal::NoRound));
        for bits in [0, 1 << 4, 1 << 63, 0b11111, u64::MAX] {
            assert_eq!(journal.round(bits.into()), Err(Refusal::RoundSet));
        }
        assert_eq!(journal.rounds(), 0);
        let heard = Heard::nothing().with(0, true).with(1, false);
        assert_eq!(journal.round(journal.sheet().letters(heard).unwrap()).unwrap().to_string(), "?1");
        assert_eq!(journal.close().unwrap().verdicts.to_string(), "01");
        assert_eq!(journal.close(), Err(Refusal::Closed));
        assert_eq!(journal.round(masks(0, 0)), Err(Refusal::Closed));
        assert_eq!(journal.round(0.into()), Err(Refusal::Closed));
        assert_eq!(journal.rounds(), 1);
    }
}

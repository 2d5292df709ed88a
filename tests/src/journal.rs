//! The book of a journal, which is fed calls alone, and the entries that work on a record and on
//! lent storage.

use crate::letters::LetterSet;
use crate::monitor::{Monitor, Verdict};
use crate::pairs::{Pairs, SET_WORDS};
use crate::shares::share;

/// The most rounds that a journal holds.
pub const MAX_ROUNDS: u32 = 1_000_000;
/// Three sets of pairs: live, reached, scratch.
pub const STORAGE_WORDS: usize = 3 * SET_WORDS;
/// Rounds, closed, and four counts for each of seven outputs.
pub const RECORD_NUMBERS: usize = 30;
/// The fewest numbers an answer has room for.
pub const ANSWER_NUMBERS: usize = 16;
/// Returned where a record or an answer has the wrong number of elements.
pub const WRONG_SIZES: u32 = 255;

#[derive(Clone, Copy, Debug, PartialEq, Eq)]
pub enum Call {
    Prepare,
    Round(LetterSet),
    /// Whether all outputs of a set are true together in the last round; bit k names output k.
    Together(u8),
    Close,
}

/// A round whose set has this number.
pub fn round(letters: u64) -> Call {
    Call::Round(LetterSet(letters))
}

/// Whether a letter fits the marks `0 1 ?` of an alternative, input 0 first.
fn fits(marks: &str, letter: usize) -> bool {
    let fits_one = |(input, mark)| match mark {
        '0' => letter >> input & 1 == 0,
        '1' => letter >> input & 1 == 1,
        _ => true,
    };
    marks.chars().enumerate().all(fits_one)
}

/// A call from a line of the journal program: `.` closes, and else the letters are those that fit one of
/// the alternatives.
pub fn call_of_line(line: &str) -> Call {
    if line == "." {
        return Call::Close;
    }
    let alternatives: Vec<&str> = line.split('|').collect();
    let letters = 0..1 << alternatives[0].len();
    Call::Round(letters.filter(|&letter| alternatives.iter().any(|marks| fits(marks, letter))).collect())
}

/// Verdicts as the journal program prints them.
pub fn print(verdicts: &[Verdict]) -> String {
    verdicts.iter().map(|verdict| verdict.mark()).collect()
}

/// Where a verdict is counted among the four counts: true, false, open, broken.
fn column(verdict: Verdict) -> usize {
    match verdict {
        Verdict::True => 0,
        Verdict::False => 1,
        Verdict::Open => 2,
        Verdict::Broken => 3,
    }
}

#[derive(Clone, Debug, PartialEq, Eq)]
pub struct Answer {
    pub verdicts: Vec<Verdict>,
    /// One for each output at a closing, none in a round.
    pub shares: Vec<u32>,
}

/// The book: what a journal's calls are answered, found from the sheet and the calls in their order.
pub struct Book<'a> {
    monitor: &'a Monitor,
    pub rounds: Vec<LetterSet>,
    pub closed: bool,
    /// For each output the rounds answered true, false, open, broken.
    pub counts: Vec<[u32; 4]>,
    reached: Option<Pairs>,
}

impl Book<'_> {
    pub fn new(monitor: &Monitor) -> Book<'_> {
        let counts = vec![[0; 4]; monitor.sheet.outputs()];
        Book { monitor, rounds: Vec::new(), closed: false, counts, reached: None }
    }

    pub fn round(&mut self, letters: LetterSet) -> Result<Answer, u32> {
        if self.closed {
            return Err(12);
        }
        if letters.is_bad(self.inputs()) {
            return Err(21);
        }
        if self.rounds.len() == MAX_ROUNDS as usize {
            return Err(13);
        }
        self.rounds.push(letters);
        let reached = self.monitor.step(&self.monitor.live, self.reached.as_ref(), letters);
        let verdicts = self.monitor.verdicts(&reached);
        self.reached = Some(reached);
        for (counts, &verdict) in self.counts.iter_mut().zip(&verdicts) {
            counts[column(verdict)] += 1;
        }
        Ok(Answer { verdicts, shares: Vec::new() })
    }

    pub fn close(&mut self) -> Result<Answer, u32> {
        if self.closed {
            return Err(12);
        }
        let Some(reached) = &self.reached else {
            return Err(14);
        };
        self.closed = true;
        let verdicts = self.monitor.closing_verdicts(reached);
        let t = self.rounds.len() as u32;
        let shares = self.counts.iter().map(|counts| share(counts[0], t)).collect();
        Ok(Answer { verdicts, shares })
    }

    /// Whether all outputs of a set are true together in the last round.
    pub fn together(&self, outputs: u8) -> Result<Verdict, u32> {
        self.judge(&self.firsts(), outputs)
    }

    /// The same for each of the 256 sets.
    pub fn every_set(&self) -> Vec<Result<Verdict, u32>> {
        let firsts = self.firsts();
        (0..=255).map(|outputs| self.judge(&firsts, outputs)).collect()
    }

    /// What the last round may have been, outputs and all; nothing where there was none.
    fn firsts(&self) -> Vec<usize> {
        self.reached.as_ref().map_or(Vec::new(), Pairs::firsts)
    }

    fn judge(&self, firsts: &[usize], outputs: u8) -> Result<Verdict, u32> {
        if self.closed {
            return Err(12);
        }
        if names_beyond(outputs, self.monitor.sheet.outputs()) {
            return Err(24);
        }
        if self.rounds.is_empty() {
            return Err(14);
        }
        Ok(self.monitor.together(firsts, outputs))
    }

    pub fn inputs(&self) -> usize {
        self.monitor.sheet.inputs
    }

    /// The letters with which the journal can go on in a completion of its rounds.
    pub fn letters_ahead(&self) -> Vec<u8> {
        let m = self.inputs();
        let ahead = match &self.reached {
            // Round 1: all first valuations of completions.
            None => self.monitor.step(&self.monitor.live, None, LetterSet::all(m)).all(),
            Some(reached) => {
                let pairs = reached.all().into_iter();
                pairs.filter(|&(_, b)| b != reached.end()).map(|(a, b)| (b, a)).collect()
            }
        };
        let mut letters: Vec<u8> = ahead.iter().map(|(valuation, _)| (valuation % (1 << m)) as u8).collect();
        letters.sort();
        letters.dedup();
        letters
    }
}

/// What a caller lends or hands in.
#[derive(Clone, Debug, PartialEq, Eq)]
pub struct Held {
    pub storage: Vec<u64>,
    pub record: Vec<u32>,
    pub answer: Vec<u32>,
}

impl Held {
    pub fn fresh() -> Held {
        Held { storage: vec![0; STORAGE_WORDS], record: vec![0; RECORD_NUMBERS], answer: vec![0; ANSWER_NUMBERS] }
    }

    /// The four counts of output k in the record.
    pub fn counts(&self, k: usize) -> [u32; 4] {
        [0, 1, 2, 3].map(|verdict| self.record[2 + 4 * k + verdict])
    }

    /// Writes the record's fields, with the counts (true, false, open, broken) of the first outputs.
    pub fn forge(&mut self, rounds: u32, closed: u32, counts: &[[u32; 4]]) {
        self.record[0] = rounds;
        self.record[1] = closed;
        for (k, four) in counts.iter().enumerate() {
            self.record[2 + 4 * k..6 + 4 * k].copy_from_slice(four);
        }
    }
}

/// Makes a call and returns its number, 0 if it is accepted. It works on whatever record and storage
/// it is handed, prepared or not. On a refusal nothing is altered.
pub fn call(monitor: &Result<Monitor, u32>, held: &mut Held, call: Call) -> u32 {
    let outcome = match call {
        Call::Prepare => prepare(monitor, held),
        Call::Round(letters) => hear(monitor, held, letters),
        Call::Together(outputs) => together(monitor, held, outputs),
        Call::Close => close(monitor, held),
    };
    outcome.err().unwrap_or(0)
}

fn prepare(monitor: &Result<Monitor, u32>, held: &mut Held) -> Result<(), u32> {
    check_lengths(held)?;
    let monitor = monitor.as_ref().map_err(|&number| number)?;
    check_storage(held)?;
    held.storage[..SET_WORDS].copy_from_slice(&monitor.live.to_words());
    held.storage[SET_WORDS..STORAGE_WORDS].fill(0);
    held.record.fill(0);
    held.answer[..2].copy_from_slice(&[monitor.live.count() as u32, monitor.reach as u32]);
    Ok(())
}

fn hear(monitor: &Result<Monitor, u32>, held: &mut Held, letters: LetterSet) -> Result<(), u32> {
    check_lengths(held)?;
    let monitor = monitor.as_ref().map_err(|&number| number)?;
    check_storage(held)?;
    check_record(held, monitor.sheet.outputs())?;
    if letters.is_bad(monitor.sheet.inputs) {
        return Err(21);
    }
    if held.record[0] == MAX_ROUNDS {
        return Err(13);
    }
    let set = |number: usize| {
        let words = &held.storage[number * SET_WORDS..(number + 1) * SET_WORDS];
        Pairs::from_words(monitor.size(), words)
    };
    let before = (held.record[0] > 0).then(|| set(1));
    let reached = monitor.step(&set(0), before.as_ref(), letters);
    let verdicts = monitor.verdicts(&reached);
    reached.write(&mut held.storage[SET_WORDS..2 * SET_WORDS]);
    Pairs::none(monitor.size()).write(&mut held.storage[2 * SET_WORDS..STORAGE_WORDS]);
    held.record[0] += 1;
    for (k, &verdict) in verdicts.iter().enumerate() {
        held.record[2 + 4 * k + column(verdict)] += 1;
        held.answer[k] = verdict as u32;
    }
    Ok(())
}

fn together(monitor: &Result<Monitor, u32>, held: &mut Held, outputs: u8) -> Result<(), u32> {
    check_lengths(held)?;
    let monitor = monitor.as_ref().map_err(|&number| number)?;
    check_storage(held)?;
    check_record(held, monitor.sheet.outputs())?;
    if names_beyond(outputs, monitor.sheet.outputs()) {
        return Err(24);
    }
    if held.record[0] == 0 {
        return Err(14);
    }
    let reached = Pairs::from_words(monitor.size(), &held.storage[SET_WORDS..2 * SET_WORDS]);
    held.answer[0] = monitor.together(&reached.firsts(), outputs) as u32;
    Ok(())
}

fn close(monitor: &Result<Monitor, u32>, held: &mut Held) -> Result<(), u32> {
    check_lengths(held)?;
    let monitor = monitor.as_ref().map_err(|&number| number)?;
    check_storage(held)?;
    let n = monitor.sheet.outputs();
    check_record(held, n)?;
    if held.record[0] == 0 {
        return Err(14);
    }
    let reached = Pairs::from_words(monitor.size(), &held.storage[SET_WORDS..2 * SET_WORDS]);
    for (k, &verdict) in monitor.closing_verdicts(&reached).iter().enumerate() {
        held.answer[k] = verdict as u32;
        held.answer[n + k] = share(held.counts(k)[0], held.record[0]);
    }
    held.record[1] = 1;
    Ok(())
}

fn check_lengths(held: &Held) -> Result<(), u32> {
    if held.record.len() != RECORD_NUMBERS || held.answer.len() < ANSWER_NUMBERS {
        return Err(WRONG_SIZES);
    }
    Ok(())
}

/// Rule 15.
fn check_storage(held: &Held) -> Result<(), u32> {
    if held.storage.len() < STORAGE_WORDS {
        return Err(15);
    }
    Ok(())
}

/// Rule 24: a set names an output that is not below n.
fn names_beyond(outputs: u8, n: usize) -> bool {
    (n..8).any(|k| outputs >> k & 1 == 1)
}

/// Rules 18 and 12.
fn check_record(held: &Held, outputs: usize) -> Result<(), u32> {
    let (rounds, closed) = (held.record[0], held.record[1]);
    let adds_up = |k: usize| held.counts(k).iter().map(|&count| count as u64).sum::<u64>() == rounds as u64;
    if rounds > MAX_ROUNDS || closed > 1 || !(0..outputs).all(adds_up) {
        return Err(18);
    }
    if closed == 1 {
        return Err(12);
    }
    Ok(())
}

#[cfg(test)]
mod tests {
    use super::*;
    use crate::cases;
    use crate::hex;
    use crate::random::{self, Random};

    #[test]
    fn lines() {
        assert_eq!(call_of_line("10"), round(0b0010));
        assert_eq!(call_of_line("?1"), round(0b1100));
        assert_eq!(call_of_line("1?0?"), round(1 << 1 | 1 << 3 | 1 << 9 | 1 << 11));
        assert_eq!(call_of_line("??????"), round(u64::MAX));
        assert_eq!(call_of_line("."), Call::Close);
        assert_eq!(call_of_line("00|11"), round(0b1001));
        assert_eq!(call_of_line("11|00|11"), round(0b1001));
        assert_eq!(call_of_line("0|1"), round(0b11));
        assert_eq!(call_of_line("1?|?1"), round(0b1110));
        assert_eq!(call_of_line("000000|111111"), round(1 << 63 | 1));
    }

    #[test]
    fn explicit_journals() {
        for case in cases::journals() {
            let monitor = Monitor::new(&case.sheet).unwrap();
            let mut book = Book::new(&monitor);
            for (line, expected) in &case.calls {
                let answer = match call_of_line(line) {
                    Call::Round(letters) => book.round(letters),
                    _ => book.close(),
                };
                let printed = answer.map_or_else(|number| number.to_string(), |answer| print(&answer.verdicts));
                assert_eq!(printed, *expected, "{}: {line}", case.name);
            }
        }
    }

    #[test]
    fn explicit_sets() {
        for case in cases::together() {
            let monitor = Monitor::new(&case.sheet).unwrap();
            let mut book = Book::new(&monitor);
            for (line, expected) in &case.rounds {
                let Call::Round(letters) = call_of_line(line) else { panic!("{line} is a round") };
                book.round(letters).unwrap();
                let (sets, beyond) = (book.every_set(), 1 << monitor.sheet.outputs());
                let verdicts: Vec<Verdict> = sets[..beyond].iter().map(|answer| answer.unwrap()).collect();
                assert_eq!(print(&verdicts), *expected, "{}: {line}", case.name);
                assert!(sets[beyond..].iter().all(|answer| *answer == Err(24)), "{}", case.name);
            }
        }
    }

    #[test]
    fn explicit_preparations() {
        for case in cases::preparations() {
            let monitor = Monitor::new(&case.sheet).unwrap();
            assert_eq!((monitor.live.count(), monitor.reach), (case.live, case.reach), "{}", case.name);
        }
    }

    #[test]
    fn deep_sheets() {
        let reach = |sheet: &[u8]| Monitor::new(sheet).unwrap().reach;
        assert_eq!(reach(&cases::counter()), 64);
        assert!(reach(&cases::register()) > 3000);
    }

    #[test]
    fn explicit_refusals() {
        for case in cases::journal_refusals() {
            let monitor = Monitor::new(&case.sheet);
            let mut held = case.held.clone();
            assert_eq!(call(&monitor, &mut held, case.call), case.number, "{}", case.name);
            assert!(case.number == 0 || held == case.held, "{}", case.name);
        }
    }

    /// The entries on what preparation left give the answers of the book, broken verdicts last, and
    /// the four counts add up. A set of one output is answered as the round was, and the empty set is true
    /// unless that is broken.
    #[test]
    fn entries_and_book() {
        let mut random = Random::new(721);
        for _ in 0..400 {
            let bytes = random::small(&mut random, 6);
            let monitor = Monitor::new(&bytes);
            let mut book = Book::new(monitor.as_ref().unwrap());
            let mut held = Held::fresh();
            random.fill(&mut held.storage);
            assert_eq!(call(&monitor, &mut held, Call::Prepare), 0);
            let mut broken = false;
            for _ in 0..random.range(1, 12) {
                let letters = random.round_along(&book, 30);
                let number = call(&monitor, &mut held, Call::Round(letters));
                let answer = book.round(letters);
                assert_eq!(number, answer.as_ref().err().copied().unwrap_or(0));
                let verdicts = answer.unwrap().verdicts;
                for (k, verdict) in verdicts.iter().enumerate() {
                    assert_eq!(held.answer[k], *verdict as u32);
                    assert_eq!(held.counts(k), book.counts[k]);
                    assert_eq!(held.counts(k).iter().sum::<u32>() as usize, book.rounds.len());
                    assert!(!broken || *verdict == Verdict::Broken, "{}", hex(&bytes));
                    assert_eq!(*verdict == Verdict::Broken, verdicts[0] == Verdict::Broken);
                }
                broken = verdicts[0] == Verdict::Broken;
                let sets = book.every_set();
                assert_eq!(sets[0], Ok(if broken { Verdict::Broken } else { Verdict::True }));
                for k in 0..8 {
                    assert_eq!(sets[1 << k], verdicts.get(k).copied().ok_or(24), "{}", hex(&bytes));
                }
                let outputs = random.byte();
                assert_eq!(book.together(outputs), sets[outputs as usize]);
                let before = held.clone();
                let number = call(&monitor, &mut held, Call::Together(outputs));
                assert_eq!(number, sets[outputs as usize].err().unwrap_or(0));
                let expected = sets[outputs as usize].map_or(before.answer[0], |verdict| verdict as u32);
                assert!(held == Held { answer: [&[expected], &before.answer[1..]].concat(), ..before });
            }
            assert_eq!(call(&monitor, &mut held, Call::Close), 0);
            let answer = book.close().unwrap();
            let n = book.counts.len();
            for k in 0..n {
                assert_eq!((held.answer[k], held.answer[n + k]), (answer.verdicts[k] as u32, answer.shares[k]));
            }
            assert_eq!(call(&monitor, &mut held, Call::Close), 12);
            assert_eq!(book.every_set(), [Err(12); 256]);
        }
    }
}

//! A monitor written straight from the definitions: sets of pairs of the standard library, and the
//! equations evaluated wherever they are asked for.

use outside::circular;
use outside::sheet::{Expression, Sheet};
use std::collections::{BTreeMap, BTreeSet, HashSet};

/// A valuation, and the one that follows it or `None` for the end mark.
pub type Pair = (u8, Option<u8>);

const MAX_ROUNDS: u32 = 1_000_000;

/// A sheet that was read and checked, with its live pairs.
pub struct Monitor {
    sheet: Sheet,
    /// In order, so that the pairs of a valuation stand together.
    pub live: BTreeSet<Pair>,
}

impl Monitor {
    /// Preparation, or the sheet's refusal.
    pub fn new(bytes: &[u8]) -> Result<Monitor, u32> {
        let sheet = circular::accept(bytes)?;
        let live = live_pairs(&sheet);
        Ok(Monitor { sheet, live })
    }

    /// The live pairs (b, c) reached in a round: b's letter is in the round's set, and the equations hold
    /// at b between some a and c, a being nothing in round 1 (`reached` is none) and later the first part
    /// of a pair (a, b) reached in the round before.
    fn step(&self, reached: Option<&BTreeSet<Pair>>, letters: u64) -> BTreeSet<Pair> {
        let mut before: BTreeMap<u8, Vec<Option<u8>>> = BTreeMap::new();
        let mut hear = |a: Option<u8>, b: u8| {
            if letters >> self.letter(b) & 1 == 1 {
                before.entry(b).or_default().push(a);
            }
        };
        match reached {
            None => valuations(&self.sheet).for_each(|b| hear(None, b)),
            Some(reached) => reached.iter().filter_map(|&(a, b)| Some((a, b?))).for_each(|(a, b)| hear(Some(a), b)),
        }
        let mut next = BTreeSet::new();
        for (b, firsts) in before {
            for &(_, c) in self.live.range((b, None)..=(b, Some(u8::MAX))) {
                if firsts.iter().any(|&a| equations_hold(&self.sheet, a, b, c)) {
                    next.insert((b, c));
                }
            }
        }
        next
    }

    /// The inputs of a valuation.
    fn letter(&self, valuation: u8) -> u8 {
        valuation & ((1 << self.sheet.inputs) - 1)
    }

    /// The number of the verdict on each output over these valuations.
    fn verdicts(&self, valuations: impl Iterator<Item = u8> + Clone) -> Vec<u8> {
        let streams = self.sheet.inputs..self.sheet.inputs + self.sheet.outputs();
        streams.map(|stream| verdict(valuations.clone(), |valuation| bit(valuation, stream))).collect()
    }
}

/// The number of the verdict on a test over these valuations.
fn verdict(valuations: impl Iterator<Item = u8> + Clone, test: impl Fn(u8) -> bool) -> u8 {
    match (valuations.clone().any(&test), !valuations.clone().all(&test)) {
        (false, true) => 0,
        (true, false) => 1,
        (true, true) => 2,
        (false, false) => 3,
    }
}

/// A journal of a sheet.
pub struct Journal<'a> {
    monitor: &'a Monitor,
    /// None before round 1.
    reached: Option<BTreeSet<Pair>>,
    pub rounds: u32,
    pub closed: bool,
    /// For each output the rounds answered true, false, open, broken.
    pub counts: Vec<[u32; 4]>,
}

impl Journal<'_> {
    pub fn new(monitor: &Monitor) -> Journal<'_> {
        let counts = vec![[0; 4]; monitor.sheet.outputs()];
        Journal { monitor, reached: None, rounds: 0, closed: false, counts }
    }

    /// The verdicts, or the number of the refusal.
    pub fn round(&mut self, letters: u64) -> Result<Vec<u8>, u32> {
        if self.closed {
            return Err(12);
        }
        if letters == 0 || letters.ilog2() >= 1 << self.monitor.sheet.inputs {
            return Err(21);
        }
        if self.rounds == MAX_ROUNDS {
            return Err(13);
        }
        let reached = self.monitor.step(self.reached.as_ref(), letters);
        let verdicts = self.monitor.verdicts(reached.iter().map(|&(a, _)| a));
        self.reached = Some(reached);
        self.rounds += 1;
        for (counts, &verdict) in self.counts.iter_mut().zip(&verdicts) {
            counts[[1, 0, 2, 3][verdict as usize]] += 1;
        }
        Ok(verdicts)
    }

    /// The verdict on all outputs of a set being true together, or the number of the refusal.
    pub fn together(&self, outputs: u8) -> Result<u8, u32> {
        if self.closed {
            return Err(12);
        }
        let sheet = &self.monitor.sheet;
        if outputs >> sheet.outputs() != 0 {
            return Err(24);
        }
        let reached = self.reached.as_ref().ok_or(14u32)?;
        let named: Vec<usize> = (0..sheet.outputs()).filter(|k| outputs >> k & 1 == 1).collect();
        let all_true = |valuation: u8| named.iter().all(|k| bit(valuation, sheet.inputs + k));
        Ok(verdict(reached.iter().map(|&(a, _)| a), all_true))
    }

    /// The verdicts and the shares, or the number of the refusal.
    pub fn close(&mut self) -> Result<(Vec<u8>, Vec<u32>), u32> {
        if self.closed {
            return Err(12);
        }
        let reached = self.reached.as_ref().ok_or(14u32)?;
        self.closed = true;
        let last = reached.iter().filter(|(_, b)| b.is_none()).map(|&(a, _)| a);
        let shares = self.counts.iter().map(|counts| share(counts[0], self.rounds));
        Ok((self.monitor.verdicts(last), shares.collect()))
    }
}

/// True rounds per thousand, to the nearest, halves to the even number: up, and back where a half came to an
/// odd one.
fn share(true_rounds: u32, rounds: u32) -> u32 {
    let (twice, whole) = (2000 * true_rounds as u64 + rounds as u64, 2 * rounds as u64);
    let nearest = twice / whole;
    let was_half = twice % whole == 0;
    (if was_half { nearest - nearest % 2 } else { nearest }) as u32
}

/// The live pairs, backward from the end: (a, b) is live if a and b have the assumption and the
/// equations hold at b between a and the second part of some live pair (b, c).
fn live_pairs(sheet: &Sheet) -> BTreeSet<Pair> {
    let has_assumption = |a: &u8| sheet.assumption.is_none_or(|output| bit(*a, sheet.inputs + output));
    let assumed: Vec<u8> = valuations(sheet).filter(has_assumption).collect();
    let mut waiting: Vec<Pair> = assumed.iter().map(|&a| (a, None)).collect();
    let mut live: HashSet<Pair> = waiting.iter().copied().collect();
    while let Some((b, c)) = waiting.pop() {
        for &a in &assumed {
            let pair = (a, Some(b));
            if !live.contains(&pair) && equations_hold(sheet, Some(a), b, c) {
                live.insert(pair);
                waiting.push(pair);
            }
        }
    }
    live.into_iter().collect()
}

fn valuations(sheet: &Sheet) -> impl Iterator<Item = u8> {
    0..=((1u16 << (sheet.inputs + sheet.outputs())) - 1) as u8
}

fn bit(valuation: u8, stream: usize) -> bool {
    valuation >> stream & 1 == 1
}

/// Whether each output of b has the value of its expression, between a and c.
fn equations_hold(sheet: &Sheet, a: Option<u8>, b: u8, c: Option<u8>) -> bool {
    let mut outputs = sheet.expressions.iter().enumerate();
    outputs.all(|(k, expression)| bit(b, sheet.inputs + k) == value(expression, a, b, c))
}

/// The value of an expression in round b, a and c being the rounds beside it, if there are any.
fn value(expression: &Expression, a: Option<u8>, b: u8, c: Option<u8>) -> bool {
    match expression {
        Expression::Constant(constant) => *constant,
        Expression::Not(part) => !value(part, a, b, c),
        Expression::And(left, right) => value(left, a, b, c) && value(right, a, b, c),
        Expression::Or(left, right) => value(left, a, b, c) || value(right, a, b, c),
        Expression::Equal(left, right) => value(left, a, b, c) == value(right, a, b, c),
        Expression::Read(read) => {
            let round = match read.offset {
                -1 => a,
                0 => Some(b),
                _ => c,
            };
            round.map_or(read.default, |valuation| bit(valuation, read.stream))
        }
    }
}

#[cfg(test)]
mod tests {
    use super::*;
    use outside::journal::{call_of_line, Book, Call};
    use outside::monitor::Verdict;
    use outside::random::{self, Random};
    use outside::{cases, hex, monitor, shares};

    fn numbers(verdicts: &[Verdict]) -> Vec<u8> {
        verdicts.iter().map(|&verdict| verdict as u8).collect()
    }

    /// Both monitors of a sheet, with the same live pairs.
    fn both(sheet: &[u8]) -> (Monitor, monitor::Monitor) {
        let (own, other) = (Monitor::new(sheet).unwrap(), monitor::Monitor::new(sheet).unwrap());
        let pairs = other.live.all().into_iter();
        let expected: BTreeSet<Pair> =
            pairs.map(|(a, b)| (a as u8, (b != other.live.end()).then_some(b as u8))).collect();
        assert!(own.live == expected, "{}", hex(sheet));
        (own, other)
    }

    /// The same answer and the same record on both sides.
    fn agree(journal: &mut Journal, book: &mut Book, call: Call) -> Option<u32> {
        let (found, expected) = match call {
            Call::Round(letters) => {
                let found = journal.round(letters.0).map(|verdicts| (verdicts, Vec::new()));
                (found, book.round(letters))
            }
            _ => (journal.close(), book.close()),
        };
        for (outputs, expected) in (0..=255).zip(book.every_set()) {
            assert_eq!(journal.together(outputs), expected.map(|verdict| verdict as u8), "{outputs:#b}");
        }
        assert_eq!(found, expected.map(|answer| (numbers(&answer.verdicts), answer.shares)), "{call:?}");
        assert_eq!((journal.rounds as usize, journal.closed), (book.rounds.len(), book.closed));
        assert_eq!(journal.counts, book.counts);
        found.err()
    }

    #[test]
    fn explicit_sheets() {
        for case in cases::sheets() {
            assert_eq!(Monitor::new(&case.sheet).err().unwrap_or(0), case.number, "{}", case.name);
        }
        for case in cases::preparations() {
            assert_eq!(Monitor::new(&case.sheet).unwrap().live.len(), case.live, "{}", case.name);
        }
        [cases::counter(), cases::register()].iter().for_each(|sheet| drop(both(sheet)));
    }

    #[test]
    fn explicit_journals() {
        for case in cases::journals() {
            let (own, other) = both(&case.sheet);
            let (mut journal, mut book) = (Journal::new(&own), Book::new(&other));
            for (line, _) in &case.calls {
                agree(&mut journal, &mut book, call_of_line(line));
            }
        }
    }

    #[test]
    fn random_journals() {
        let mut random = Random::new(921);
        let mut refusals = Vec::new();
        for turn in 0..600 {
            let sheet = random::small(&mut random, if turn % 20 == 0 { 8 } else { 6 });
            let (own, other) = both(&sheet);
            let (mut journal, mut book) = (Journal::new(&own), Book::new(&other));
            let unknown = random.pick(&[0, 30, 100]);
            for _ in 0..random.range(0, 12) {
                let letters = match random.below(12) {
                    0 => random.any_set(book.inputs()),
                    1..4 => random.round(book.inputs(), unknown),
                    _ => random.round_along(&book, unknown),
                };
                refusals.extend(agree(&mut journal, &mut book, Call::Round(letters)));
            }
            refusals.extend(agree(&mut journal, &mut book, Call::Close));
            refusals.extend(agree(&mut journal, &mut book, Call::Close));
        }
        assert!([12, 14, 21].iter().all(|number| refusals.contains(number)));
    }

    #[test]
    fn shares_of_counts() {
        for (rounds, counts) in shares::cases() {
            for count in counts {
                assert_eq!(share(count, rounds), shares::share(count, rounds), "{count} of {rounds}");
            }
        }
    }

    #[test]
    fn the_last_round() {
        let monitor = Monitor::new(&cases::plain(1, &["40"])).unwrap();
        let mut journal = Journal::new(&monitor);
        journal.rounds = MAX_ROUNDS - 1;
        assert_eq!(journal.round(0b10), Ok(vec![1]));
        assert_eq!(journal.round(0b10), Err(13));
        assert_eq!([0, 0b100, u64::MAX].map(|letters| journal.round(letters)), [Err(21), Err(21), Err(21)]);
        assert_eq!(journal.rounds, MAX_ROUNDS);
    }
}

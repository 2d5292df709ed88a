//! Verdicts found in two ways: over sets of pairs, round by round, and by trying every list of
//! letters up to some length.

use crate::circular;
use crate::language;
use crate::letters::{Heard, LetterSet};
use crate::pairs::Pairs;
use crate::sheet::{Expression, Sheet};

#[derive(Clone, Copy, Debug, PartialEq, Eq)]
pub enum Verdict {
    False = 0,
    True = 1,
    Open = 2,
    Broken = 3,
}

impl Verdict {
    /// From whether some completion has the output true there, and some has it false.
    pub fn of(some_true: bool, some_false: bool) -> Verdict {
        match (some_true, some_false) {
            (false, true) => Verdict::False,
            (true, false) => Verdict::True,
            (true, true) => Verdict::Open,
            (false, false) => Verdict::Broken,
        }
    }

    /// As the journal program prints it.
    pub fn mark(self) -> char {
        ['0', '1', '?', '!'][self as usize]
    }
}

/// The streams, as a mask, that some expression reads one round earlier, now, one round later.
#[derive(Clone, Copy)]
struct Reads {
    earlier: usize,
    now: usize,
    later: usize,
}

impl Reads {
    fn of<'a>(expressions: impl IntoIterator<Item = &'a Expression>) -> Reads {
        let mut reads = Reads { earlier: 0, now: 0, later: 0 };
        for expression in expressions {
            expression.for_each_read(&mut |read| match read.offset {
                -1 => reads.earlier |= 1 << read.stream,
                0 => reads.now |= 1 << read.stream,
                _ => reads.later |= 1 << read.stream,
            });
        }
        reads
    }
}

/// The valuations, and `size` for none, as far as a table tells them apart: by the streams of a
/// mask.
struct Classes {
    /// One valuation of each class, the other streams being false; then `size`.
    parts: Vec<usize>,
    /// The class of each valuation, and of `size`.
    numbers: Vec<usize>,
}

impl Classes {
    fn new(size: usize, mask: usize) -> Classes {
        let mut parts: Vec<usize> = (0..size).filter(|part| part & !mask == 0).collect();
        parts.push(size);
        let number = |part: usize| parts.binary_search(&part).expect("a part of the mask");
        let numbers = (0..size).map(|valuation| number(valuation & mask)).chain([parts.len() - 1]).collect();
        Classes { parts, numbers }
    }
}

/// A Boolean for each (a, b, c), a or c being `size` where no round precedes or follows b.
struct Table {
    earlier: Classes,
    now: Classes,
    later: Classes,
    entries: Vec<bool>,
}

impl Table {
    /// The table of a function that looks at the streams of `reads` only.
    fn new(size: usize, reads: Reads, entry: impl Fn(usize, usize, usize) -> bool) -> Table {
        let [earlier, now, later] = [reads.earlier, reads.now, reads.later].map(|mask| Classes::new(size, mask));
        let mut entries = Vec::new();
        for &b in now.parts.iter().filter(|&&b| b < size) {
            for &a in &earlier.parts {
                entries.extend(later.parts.iter().map(|&c| entry(a, b, c)));
            }
        }
        Table { earlier, now, later, entries }
    }

    fn get(&self, a: usize, b: usize, c: usize) -> bool {
        let row = self.now.numbers[b] * self.earlier.parts.len() + self.earlier.numbers[a];
        self.entries[row * self.later.parts.len() + self.later.numbers[c]]
    }
}

/// An accepted sheet, ready for journals.
pub struct Monitor {
    pub sheet: Sheet,
    pub live: Pairs,
    /// The greatest, over all live pairs, of the fewest further rounds to the end.
    pub reach: usize,
    /// Whether all equations hold at b, between a and c.
    equations: Table,
}

impl Monitor {
    /// The monitor of a sheet, or the sheet's refusal.
    pub fn new(bytes: &[u8]) -> Result<Monitor, u32> {
        let sheet = circular::accept(bytes)?;
        let equations = equations(&sheet);
        let (live, reach) = live(&sheet, &equations);
        Ok(Monitor { sheet, live, reach, equations })
    }

    /// How many valuations there are.
    pub fn size(&self) -> usize {
        size(&self.sheet)
    }

    /// The pairs (b, c) of `live` reached in a round: b's letter is in the round's set and the equations
    /// hold at b between a and c, a being nothing in round 1 (`reached` is none) and later some a of a
    /// pair (a, b) reached in the round before.
    pub fn step(&self, live: &Pairs, reached: Option<&Pairs>, letters: LetterSet) -> Pairs {
        let size = self.size();
        let mut next = Pairs::none(size);
        for b in (0..size).filter(|b| letters.has(b % (1 << self.sheet.inputs))) {
            let before = match reached {
                None => vec![size],
                Some(reached) => self.parts_before(reached, b),
            };
            for c in 0..=size {
                if live.has(b, c) && before.iter().any(|&a| self.equations.get(a, b, c)) {
                    next.insert(b, c);
                }
            }
        }
        next
    }

    /// The a of the pairs (a, b), but one only for those that the equations do not tell apart.
    fn parts_before(&self, reached: &Pairs, b: usize) -> Vec<usize> {
        let mut found = vec![false; self.size()];
        for a in (0..self.size()).filter(|&a| reached.has(a, b)) {
            found[self.equations.earlier.numbers[a]] = true;
        }
        let parts = self.equations.earlier.parts.iter();
        parts.zip(found).filter(|(_, found)| *found).map(|(&part, _)| part).collect()
    }

    /// The verdicts on all outputs in the last round, from the pairs reached in it.
    pub fn verdicts(&self, reached: &Pairs) -> Vec<Verdict> {
        self.split(|a| reached.has_first(a))
    }

    /// The verdict on all outputs of a set being true together, bit k naming output k, from the first parts
    /// of the pairs reached.
    pub fn together(&self, firsts: &[usize], outputs: u8) -> Verdict {
        let named: Vec<usize> = (0..self.sheet.outputs()).filter(|k| outputs >> k & 1 == 1).collect();
        let all_true = |&a: &usize| named.iter().all(|k| a >> (self.sheet.inputs + k) & 1 == 1);
        Verdict::of(firsts.iter().any(all_true), !firsts.iter().all(all_true))
    }

    /// The same over completions that end with this round.
    pub fn closing_verdicts(&self, reached: &Pairs) -> Vec<Verdict> {
        self.split(|a| reached.has(a, reached.end()))
    }

    fn split(&self, possible: impl Fn(usize) -> bool) -> Vec<Verdict> {
        let possible: Vec<usize> = (0..self.size()).filter(|&a| possible(a)).collect();
        let some = |k: usize, bit: usize| possible.iter().any(|a| a >> (self.sheet.inputs + k) & 1 == bit);
        (0..self.sheet.outputs()).map(|k| Verdict::of(some(k, 1), some(k, 0))).collect()
    }
}

fn size(sheet: &Sheet) -> usize {
    1 << (sheet.inputs + sheet.outputs())
}

/// Whether the assumption, if there is one, is true in a valuation.
fn assumed(sheet: &Sheet, valuation: usize) -> bool {
    sheet.assumption.is_none_or(|output| valuation >> (sheet.inputs + output) & 1 == 1)
}

fn equations(sheet: &Sheet) -> Table {
    let (size, m) = (size(sheet), sheet.inputs);
    let round = |valuation: usize| (valuation < size).then_some(valuation as u8);
    let values: Vec<Table> = sheet
        .expressions
        .iter()
        .map(|expression| {
            Table::new(size, Reads::of([expression]), |a, b, c| {
                language::value(expression, round(a), b as u8, round(c))
            })
        })
        .collect();
    // The outputs of b are compared with their values, so all of b counts.
    let reads = Reads { now: size - 1, ..Reads::of(&sheet.expressions) };
    Table::new(size, reads, |a, b, c| {
        values.iter().enumerate().all(|(k, value)| (b >> (m + k) & 1 == 1) == value.get(a, b, c))
    })
}

/// The live pairs, layer by layer from the end, and the number of the last layer.
///
/// A pair (a, end) is live if a has the assumption. A pair (a, b) is live if a has the assumption
/// and some (b, c) is live with the equations at b between a and c, c being the end or the second
/// valuation of the list that b starts.
fn live(sheet: &Sheet, equations: &Table) -> (Pairs, usize) {
    let size = size(sheet);
    let having: Vec<usize> = (0..size).filter(|&a| assumed(sheet, a)).collect();
    let mut live = Pairs::none(size);
    // Pairs (b, c) already taken up, with the class of c, as the equations look at no more.
    let mut taken = Pairs::none(size);
    let mut layer: Vec<(usize, usize)> = having.iter().map(|&a| (a, size)).collect();
    layer.iter().for_each(|&(a, end)| live.insert(a, end));
    let mut layers = 0;
    while !layer.is_empty() {
        layers += 1;
        let mut next = Vec::new();
        for (b, c) in layer {
            let class = equations.later.numbers[c];
            if taken.has(b, class) {
                continue;
            }
            taken.insert(b, class);
            for &a in &having {
                if !live.has(a, b) && equations.get(a, b, c) {
                    live.insert(a, b);
                    next.push((a, b));
                }
            }
        }
        layer = next;
    }
    (live, layers - 1)
}

/// Whether b starts a list of at most so many valuations, after a, as the definition of live pairs wants
/// it, by trying all lists.
pub fn starts_a_list(sheet: &Sheet, a: usize, b: usize, longest: usize) -> bool {
    let holds = |c: Option<u8>| {
        (0..sheet.outputs()).all(|k| {
            let value = language::value(&sheet.expressions[k], Some(a as u8), b as u8, c);
            (b >> (sheet.inputs + k) & 1 == 1) == value
        })
    };
    if longest == 0 || !assumed(sheet, b) {
        return false;
    }
    holds(None) || (0..size(sheet)).any(|c| holds(Some(c as u8)) && starts_a_list(sheet, b, c, longest - 1))
}

/// The letters that each round may have been, over these rounds and so many further ones.
fn choices(sheet: &Sheet, rounds: &[LetterSet], further: usize) -> Vec<Vec<u8>> {
    let free = std::iter::repeat_n(LetterSet::all(sheet.inputs), further);
    rounds.iter().copied().chain(free).map(LetterSet::letters).collect()
}

/// How many lists of letters take each letter from the set of its round and have so many further rounds.
pub fn lists(sheet: &Sheet, rounds: &[LetterSet], further: usize) -> usize {
    let choices = choices(sheet, rounds, further);
    choices.iter().fold(1, |lists, choice| lists.saturating_mul(choice.len()))
}

/// The verdicts in the last round over the completions with one of these numbers of further rounds, by
/// trying all lists of letters.
pub fn by_trying(sheet: &Sheet, rounds: &[LetterSet], further: impl Iterator<Item = usize>) -> Vec<Verdict> {
    of_each_output(sheet, &last_outputs(sheet, rounds, further))
}

/// The same for rounds given as masks: the lists whose letters match the known bits.
pub fn by_trying_masks(sheet: &Sheet, heard: &[Heard], further: impl Iterator<Item = usize>) -> Vec<Verdict> {
    let every = further.flat_map(|more| every_list(choices(sheet, &[], heard.len() + more)));
    let matching = |letters: &Vec<u8>| heard.iter().zip(letters).all(|(round, &letter)| round.matches(letter as usize));
    of_each_output(sheet, &over_lists(sheet, heard.len(), every.filter(matching)))
}

/// The outputs of the last round in the completions with one of these numbers of further rounds, by trying
/// all lists of letters: bytes whose bit k is output k, each once.
pub fn last_outputs(sheet: &Sheet, rounds: &[LetterSet], further: impl Iterator<Item = usize>) -> Vec<u8> {
    let lists = further.flat_map(|more| every_list(choices(sheet, rounds, more)));
    over_lists(sheet, rounds.len(), lists)
}

/// The verdict on all outputs of a set being true together, where completions have these outputs.
pub fn together_in(completions: &[u8], outputs: u8) -> Verdict {
    let all_true = |byte: &u8| outputs & !byte == 0;
    Verdict::of(completions.iter().any(all_true), !completions.iter().all(all_true))
}

/// Every list that takes its letters from the choices of their places.
fn every_list(choices: Vec<Vec<u8>>) -> impl Iterator<Item = Vec<u8>> {
    let count: usize = choices.iter().map(Vec::len).product();
    (0..count).map(move |number| {
        let mut rest = number;
        let mut draw = |choice: &Vec<u8>| {
            let letter = choice[rest % choice.len()];
            rest /= choice.len();
            letter
        };
        choices.iter().map(&mut draw).collect()
    })
}

/// The outputs of round t over those of these lists of letters that keep the assumption, each byte once.
fn over_lists(sheet: &Sheet, t: usize, lists: impl Iterator<Item = Vec<u8>>) -> Vec<u8> {
    let mut some = [false; 256];
    for letters in lists {
        let outputs = language::values(sheet, &letters).expect("an accepted sheet");
        if sheet.assumption.is_none_or(|output| outputs.iter().all(|byte| byte >> output & 1 == 1)) {
            some[outputs[t - 1] as usize] = true;
        }
    }
    (0..=255).filter(|&byte| some[byte as usize]).collect()
}

/// The verdict on each output where completions have these outputs.
fn of_each_output(sheet: &Sheet, completions: &[u8]) -> Vec<Verdict> {
    let some = |k: usize, bit: u8| completions.iter().any(|byte| byte >> k & 1 == bit);
    (0..sheet.outputs()).map(|k| Verdict::of(some(k, 1), some(k, 0))).collect()
}

#[cfg(test)]
mod tests {
    use super::*;
    use crate::hex;
    use crate::random::{self, Random};

    #[test]
    fn the_table_holds_the_equations() {
        let mut random = Random::new(711);
        for _ in 0..300 {
            let bytes = random::accepted(&mut random);
            let monitor = Monitor::new(&bytes).unwrap();
            let (sheet, size) = (&monitor.sheet, monitor.size());
            let round = |valuation: usize| (valuation < size).then_some(valuation as u8);
            for _ in 0..2000 {
                let (a, b, c) = (random.below(size + 1), random.below(size), random.below(size + 1));
                let expected = (0..sheet.outputs()).all(|k| {
                    let value = language::value(&sheet.expressions[k], round(a), b as u8, round(c));
                    (b >> (sheet.inputs + k) & 1 == 1) == value
                });
                assert_eq!(monitor.equations.get(a, b, c), expected, "{}", hex(&bytes));
            }
        }
    }

    #[test]
    fn live_pairs_by_trying_lists() {
        let mut random = Random::new(712);
        let mut deep = 0;
        for _ in 0..400 {
            let bytes = random::small(&mut random, 3);
            let monitor = Monitor::new(&bytes).unwrap();
            let (sheet, size, reach) = (&monitor.sheet, monitor.size(), monitor.reach);
            for a in 0..size {
                assert_eq!(monitor.live.has(a, size), assumed(sheet, a));
                for b in 0..size {
                    let longer = assumed(sheet, a) && starts_a_list(sheet, a, b, reach + 2);
                    assert_eq!(monitor.live.has(a, b), longer, "({a}, {b}) of {}", hex(&bytes));
                }
            }
            let furthest =
                |longest| monitor.live.all().iter().all(|&(a, b)| b == size || starts_a_list(sheet, a, b, longest));
            assert!(furthest(reach) && (reach == 0 || !furthest(reach - 1)), "{}", hex(&bytes));
            assert!(reach < monitor.live.count());
            deep += (reach >= 3) as usize;
        }
        assert!(deep >= 5, "{deep}");
    }

    /// How often each verdict came up, in rounds and in closings.
    type Times = [[usize; 4]; 2];

    /// Verdicts, those on sets of outputs and closing verdicts of a journal against all lists of letters, as
    /// long as these are at most so many. A completion that exists has one with `reach` further rounds or
    /// fewer and the same values in round t.
    fn compare(random: &mut Random, bytes: &[u8], most: usize, seen: &mut Times) {
        let monitor = Monitor::new(bytes).unwrap();
        let sheet = &monitor.sheet;
        let (mut rounds, mut reached, unknown) = (Vec::new(), None, random.pick(&[0, 20, 40, 100]));
        for _ in 0..random.range(1, 6) {
            rounds.push(random.round(sheet.inputs, unknown));
            let enough = monitor.reach + random.below(2);
            if lists(sheet, &rounds, enough) > most {
                break;
            }
            let next = monitor.step(&monitor.live, reached.as_ref(), *rounds.last().unwrap());
            let journal = || format!("sheet {}, rounds {rounds:?}", hex(bytes));
            let verdicts = monitor.verdicts(&next);
            assert_eq!(verdicts, by_trying(sheet, &rounds, 0..=enough), "{}", journal());
            let (firsts, completions) = (next.firsts(), last_outputs(sheet, &rounds, 0..=enough));
            for outputs in 0..1 << sheet.outputs() {
                let together = monitor.together(&firsts, outputs);
                assert_eq!(together, together_in(&completions, outputs), "{outputs:#b}, {}", journal());
            }
            let closing = monitor.closing_verdicts(&next);
            assert_eq!(closing, by_trying(sheet, &rounds, 0..=0), "closing: {}", journal());
            for (way, verdicts) in [verdicts, closing].iter().enumerate() {
                verdicts.iter().for_each(|&verdict| seen[way][verdict as usize] += 1);
            }
            reached = Some(next);
        }
    }

    /// The verdicts on all sets of two outputs, by hand.
    #[test]
    fn sets_of_two() {
        let of_sets = |completions: &[u8]| [0, 1, 2, 3].map(|outputs| together_in(completions, outputs));
        use Verdict::{Broken, False, Open, True};
        assert_eq!(of_sets(&[]), [Broken; 4]);
        assert_eq!(of_sets(&[0b11]), [True; 4]);
        assert_eq!(of_sets(&[0b01]), [True, True, False, False]);
        assert_eq!(of_sets(&[0b01, 0b10]), [True, Open, Open, False]);
        assert_eq!(of_sets(&[0b00, 0b11]), [True, Open, Open, Open]);
        assert_eq!(of_sets(&[0b10, 0b11]), [True, Open, True, Open]);
        assert_eq!(of_sets(&[0b00, 0b01, 0b10]), [True, Open, Open, False]);
    }

    #[test]
    fn verdicts_by_trying_letters() {
        let mut random = Random::new(713);
        let mut seen = [[0; 4]; 2];
        for _ in 0..1500 {
            let bytes = random::small(&mut random, 5);
            compare(&mut random, &bytes, 256, &mut seen);
        }
        assert!(seen.iter().flatten().all(|&times| times >= 100), "{seen:?}");
    }

    #[test]
    fn verdicts_of_many_inputs_by_trying_letters() {
        let mut random = Random::new(715);
        let mut seen = [[0; 4]; 2];
        for _ in 0..300 {
            let bytes = random::wide(&mut random);
            compare(&mut random, &bytes, 5000, &mut seen);
        }
        assert!(seen.iter().flatten().all(|&times| times >= 10), "{seen:?}");
    }

    /// Masks and the sets made from them have the same completions.
    #[test]
    fn masks_by_trying_letters() {
        let mut random = Random::new(716);
        for _ in 0..300 {
            let monitor = Monitor::new(&random::small(&mut random, 4)).unwrap();
            let sheet = &monitor.sheet;
            let further = monitor.reach.min(3);
            let t = random.range(1, 3);
            if sheet.inputs * (t + further) > 10 {
                continue;
            }
            let heard: Vec<Heard> = (0..t).map(|_| random.heard(sheet.inputs, 50)).collect();
            let sets: Vec<LetterSet> = heard.iter().map(|round| round.set(sheet.inputs)).collect();
            for more in [0..=further, 0..=0] {
                let expected = by_trying_masks(sheet, &heard, more.clone());
                assert_eq!(by_trying(sheet, &sets, more), expected, "{heard:?}");
            }
        }
    }

    /// The pairs reached are the valuation of the last round and the one after it, over all completions.
    #[test]
    fn reached_pairs_by_trying_letters() {
        let mut random = Random::new(714);
        for _ in 0..300 {
            let bytes = random::small(&mut random, 3);
            let monitor = Monitor::new(&bytes).unwrap();
            let (sheet, size) = (&monitor.sheet, monitor.size());
            let t = random.range(1, 3);
            let sets: Vec<LetterSet> = (0..t).map(|_| random.round(sheet.inputs, 50)).collect();
            if lists(sheet, &sets, monitor.reach + 1) > 1024 {
                continue;
            }
            let mut reached = None;
            for &round in &sets {
                reached = Some(monitor.step(&monitor.live, reached.as_ref(), round));
            }
            let mut expected = Pairs::none(size);
            for rounds in t..=t + monitor.reach + 1 {
                for number in 0..1usize << (sheet.inputs * rounds) {
                    let letter = |round: usize| (number >> (sheet.inputs * round)) % (1 << sheet.inputs);
                    if !(0..t).all(|round| sets[round].has(letter(round))) {
                        continue;
                    }
                    let letters: Vec<u8> = (0..rounds).map(|round| letter(round) as u8).collect();
                    let outputs = language::values(sheet, &letters).unwrap();
                    let valuation = |round: usize| letter(round) | (outputs[round] as usize) << sheet.inputs;
                    if (0..rounds).all(|round| assumed(sheet, valuation(round))) {
                        expected.insert(valuation(t - 1), if rounds > t { valuation(t) } else { size });
                    }
                }
            }
            assert_eq!(reached, Some(expected), "sheet {}, rounds {sets:?}", hex(&bytes));
        }
    }
}

//! The library's verdicts on several outputs together: against the book, against all lists of letters, and
//! on storage that no call left, against the pairs that lie there.

use outside::compare::{Kept, Subject};
use outside::forged::{self, anything, consistent};
use outside::journal::{call_of_line, Book, Call, Held, MAX_ROUNDS, STORAGE_WORDS};
use outside::letters::LetterSet;
use outside::monitor::{self, Monitor, Verdict};
use outside::pairs::{Pairs, SET_WORDS};
use outside::random::{self, Random};
use outside::{cases, hex, library};

/// A verdict's number, or that of a refusal.
type Answer = Result<u32, u32>;

/// Asks the library. Nothing but the answer's first number is written, and that only if it is accepted.
fn ask(sheet: &[u8], held: &mut Held, outputs: u8) -> Answer {
    let (record, answer) = (held.record.clone(), held.answer.clone());
    let number = library::together(sheet, &held.storage, &held.record, outputs, &mut held.answer);
    assert_eq!(held.record, record, "{outputs:#b}, sheet {}", hex(sheet));
    let written = (number == 0) as usize;
    assert_eq!(held.answer[written..], answer[written..], "{number}: {outputs:#b}, sheet {}", hex(sheet));
    if number == 0 {
        Ok(held.answer[0])
    } else {
        Err(number)
    }
}

/// Asks about each of the 256 sets, the empty one first. The storage stays as it was.
fn ask_all(sheet: &[u8], held: &mut Held) -> Vec<Answer> {
    let storage = held.storage.clone();
    let found = (0..=255).map(|outputs| ask(sheet, held, outputs)).collect();
    assert!(held.storage == storage, "sheet {}", hex(sheet));
    found
}

/// A round that the library accepts.
fn hear(sheet: &[u8], held: &mut Held, letters: LetterSet) {
    assert_eq!(library::round(sheet, &mut held.storage, &mut held.record, letters.0, &mut held.answer), 0);
}

/// What the 256 sets are answered, from the verdict of each set below 2^n.
fn expected(outputs: usize, verdict: impl Fn(u8) -> Verdict) -> Vec<Answer> {
    (0..=255).map(|set| if (set as usize) < 1 << outputs { Ok(verdict(set) as u32) } else { Err(24) }).collect()
}

/// How often sets of two outputs or more came up.
#[derive(Debug, Default)]
struct Seen {
    /// By verdict.
    verdicts: [usize; 4],
    /// Sets of nothing but open outputs, by the verdict false, and open.
    all_open: [usize; 2],
    /// Sets with two open outputs or more, and all others true, by the same.
    some_true: [usize; 2],
    /// False sets of three outputs or more, where each with one output less is open.
    false_at_last: usize,
}

const FALSE: u32 = Verdict::False as u32;
const TRUE: u32 = Verdict::True as u32;
const OPEN: u32 = Verdict::Open as u32;
const BROKEN: u32 = Verdict::Broken as u32;

/// What the verdicts on its outputs say of a set. Where two of them or more are open and the others true, it may
/// be false or open.
fn joined(alone: &[u32], broken: bool) -> &'static [u32] {
    let opens = alone.iter().filter(|&&verdict| verdict == OPEN).count();
    match opens {
        _ if broken => &[BROKEN],
        _ if alone.contains(&FALSE) => &[FALSE],
        0 => &[TRUE],
        1 => &[OPEN],
        _ => &[FALSE, OPEN],
    }
}

impl Seen {
    /// Counts what the sets below 2^n were answered, and compares each with its outputs alone.
    fn count(&mut self, outputs: usize, answers: &[Answer]) {
        for set in 0..1usize << outputs {
            let members: Vec<usize> = (0..outputs).filter(|k| set >> k & 1 == 1).collect();
            let alone: Vec<u32> = members.iter().map(|k| answers[1 << k].unwrap()).collect();
            let (found, may_be) = (answers[set].unwrap(), joined(&alone, answers[1] == Ok(BROKEN)));
            assert!(may_be.contains(&found), "{set:#b} is {found}, its outputs are {alone:?}");
            if members.len() < 2 {
                continue;
            }
            self.verdicts[found as usize] += 1;
            if may_be.len() == 2 {
                let all_open = alone.iter().all(|&verdict| verdict == OPEN);
                let both = if all_open { &mut self.all_open } else { &mut self.some_true };
                both[(found == OPEN) as usize] += 1;
                let with_one_less = members.iter().all(|k| answers[set & !(1 << k)] == Ok(OPEN));
                self.false_at_last += (found == FALSE && members.len() >= 3 && with_one_less) as usize;
            }
        }
    }

    /// Each verdict came up so often at least, and so did both of them where all outputs are open.
    fn expect(&self, times: usize) {
        assert!(self.verdicts.iter().chain(&self.all_open).all(|&seen| seen >= times), "{self:?}");
    }

    /// And so did both where some are true, and a few sets that only all of their outputs make false.
    fn expect_larger(&self, times: usize) {
        self.expect(times);
        assert!(self.some_true.iter().all(|&seen| seen >= times) && self.false_at_last >= 5, "{self:?}");
    }
}

#[test]
fn by_hand() {
    for case in cases::together() {
        let (outputs, mut held) = (case.sheet[6] as usize, Held::fresh());
        assert_eq!(library::call(&case.sheet, &mut held, Call::Prepare), 0);
        for (line, marks) in case.rounds {
            assert_eq!(marks.len(), 1 << outputs, "{}", case.name);
            assert_eq!(library::call(&case.sheet, &mut held, call_of_line(line)), 0);
            let verdicts: Vec<u32> =
                marks.bytes().map(|mark| b"01?!".iter().position(|&m| m == mark).unwrap() as u32).collect();
            for (set, answer) in ask_all(&case.sheet, &mut held).into_iter().enumerate() {
                assert_eq!(answer, verdicts.get(set).copied().ok_or(24), "{}: {line}, {set:#b}", case.name);
            }
        }
    }
}

/// A journal whose sets are all asked about, before its first round, after each, and after its closing.
fn play(random: &mut Random, sheet: &[u8], seen: &mut Seen) {
    let monitor = Monitor::new(sheet).expect("made to be accepted");
    let (inputs, outputs) = (monitor.sheet.inputs, monitor.sheet.outputs());
    let (mut book, mut held) = (Book::new(&monitor), anything(random));
    assert_eq!(library::call(sheet, &mut held, Call::Prepare), 0);
    let numbers = |book: &Book| -> Vec<Answer> {
        book.every_set().into_iter().map(|answer| answer.map(|verdict| verdict as u32)).collect()
    };
    assert_eq!(ask_all(sheet, &mut held), numbers(&book), "sheet {}", hex(sheet));
    // Letters without any order soon break an assumption; those along a completion do not.
    let (unknown, along) = (random.pick(&[0, 30, 60, 100]), random.pick(&[0, 90, 100, 100]));
    for _ in 0..random.range(1, 8) {
        let on_the_way = random.below(100) < along;
        let letters = if on_the_way { random.round_along(&book, unknown) } else { random.round(inputs, unknown) };
        hear(sheet, &mut held, letters);
        let of_round = held.answer[..outputs].to_vec();
        book.round(letters).expect("a round of the sheet");
        let found = ask_all(sheet, &mut held);
        assert_eq!(found, numbers(&book), "rounds {:?}, sheet {}", book.rounds, hex(sheet));
        // A set of one has the verdict of the round itself.
        assert!((0..outputs).all(|k| found[1 << k] == Ok(of_round[k])), "sheet {}", hex(sheet));
        seen.count(outputs, &found);
    }
    assert_eq!(library::call(sheet, &mut held, Call::Close), 0);
    assert_eq!(ask_all(sheet, &mut held), [Err(12); 256]);
}

#[test]
fn random_journals() {
    let mut random = Random::new(801);
    let mut seen = Seen::default();
    for _ in 0..1000 {
        let sheet = random::small(&mut random, 6);
        play(&mut random, &sheet, &mut seen);
    }
    seen.expect_larger(200);
}

#[test]
fn random_journals_of_all_sizes() {
    let mut random = Random::new(802);
    let mut seen = Seen::default();
    // Six sheets of each of the 27 sizes.
    let mut sizes = [[0; 8]; 7];
    let mut versions = [0; 3];
    while sizes.iter().flatten().sum::<usize>() < 27 * 6 {
        let sheet = random::accepted(&mut random);
        let times = &mut sizes[sheet[5] as usize][sheet[6] as usize];
        if *times < 6 {
            *times += 1;
            versions[sheet[3] as usize] += 1;
            play(&mut random, &sheet, &mut seen);
        }
    }
    seen.expect_larger(100);
    assert!(versions[1..].iter().all(|&times| times >= 30), "{versions:?}");
}

/// The library against all lists of letters that are long enough, with nothing in between.
fn try_all_letters(random: &mut Random, bytes: &[u8], most: usize, seen: &mut Seen) {
    let Monitor { sheet, reach, .. } = Monitor::new(bytes).expect("made to be accepted");
    let mut held = anything(random);
    assert_eq!(library::call(bytes, &mut held, Call::Prepare), 0);
    let (unknown, mut rounds) = (random.pick(&[0, 30, 60, 100]), Vec::new());
    for _ in 0..random.range(1, 5) {
        let letters = random.round(sheet.inputs, unknown);
        rounds.push(letters);
        let further = reach + random.below(2);
        if monitor::lists(&sheet, &rounds, further) > most {
            return;
        }
        hear(bytes, &mut held, letters);
        let found = ask_all(bytes, &mut held);
        let completions = monitor::last_outputs(&sheet, &rounds, 0..=further);
        let tried = expected(sheet.outputs(), |outputs| monitor::together_in(&completions, outputs));
        assert_eq!(found, tried, "rounds {rounds:?}, sheet {}", hex(bytes));
        seen.count(sheet.outputs(), &found);
    }
}

#[test]
fn small_journals_by_trying_all_letters() {
    let mut random = Random::new(803);
    let mut seen = Seen::default();
    for _ in 0..1200 {
        let bytes = random::small(&mut random, 5);
        try_all_letters(&mut random, &bytes, 256, &mut seen);
    }
    seen.expect_larger(100);
}

/// Each output is true for one letter alone, which another output may share.
fn letter_outputs(random: &mut Random) -> Vec<u8> {
    let inputs = random.range(4, 6);
    let two = [0, 1].map(|_| cases::only(inputs, random.below(1 << inputs)));
    let expressions: Vec<&str> = (inputs..8).map(|_| two[random.below(2)].as_str()).collect();
    cases::plain(inputs as u8, &expressions)
}

/// Four inputs and more, so that sets of letters have up to 64.
#[test]
fn journals_of_many_inputs_by_trying_all_letters() {
    let mut random = Random::new(804);
    let mut seen = Seen::default();
    for _ in 0..250 {
        let bytes = if random.one_in(3) { letter_outputs(&mut random) } else { random::wide(&mut random) };
        try_all_letters(&mut random, &bytes, 5000, &mut seen);
    }
    seen.expect(5);
}

/// The pairs that lie in the reached set decide, although no call left them there, and whatever the other two
/// sets hold.
#[test]
fn unprepared_storage() {
    let mut random = Random::new(805);
    let mut seen = Seen::default();
    for turn in 0..500 {
        let sheet = random::small(&mut random, if turn % 5 == 0 { 8 } else { 6 });
        let monitor = Monitor::new(&sheet).expect("made to be accepted");
        let (size, n) = (monitor.size(), monitor.sheet.outputs());
        let mut held = anything(&mut random);
        let rounds = random.pick(&[1, 2, 1000, MAX_ROUNDS]);
        consistent(&mut random, &mut held, rounds, n);
        // All numbers of the reached set, or few of them, have anything.
        let few = random.pick(&[1, 10, 30, 100]);
        held.storage[SET_WORDS..2 * SET_WORDS].iter_mut().filter(|_| !random.one_in(few)).for_each(|word| *word = 0);
        let firsts = Pairs::from_words(size, &held.storage[SET_WORDS..2 * SET_WORDS]).firsts();
        let found = ask_all(&sheet, &mut held);
        assert_eq!(found, expected(n, |outputs| monitor.together(&firsts, outputs)), "sheet {}", hex(&sheet));
        seen.count(n, &found);
        // Other things in the other two sets, and behind all three.
        let mut others = anything(&mut random);
        others.storage[SET_WORDS..2 * SET_WORDS].copy_from_slice(&held.storage[SET_WORDS..2 * SET_WORDS]);
        consistent(&mut random, &mut others, 1, n);
        assert_eq!(ask_all(&sheet, &mut others), found, "sheet {}", hex(&sheet));
    }
    seen.expect(50);
}

/// A reached set of these pairs, and everything else that lies in storage all ones: bits and rows at and
/// beyond the valuations, the live set, the scratch set, and what comes behind.
fn ones_around(size: usize, pairs: &[(usize, usize)]) -> Vec<u64> {
    let mut set = Pairs::none(size);
    pairs.iter().for_each(|&(a, b)| set.insert(a, b));
    let mut storage = vec![u64::MAX; STORAGE_WORDS + 2];
    let reached = &mut storage[SET_WORDS..2 * SET_WORDS];
    set.write(reached);
    for valuation in size..256 {
        (0..size).for_each(|a| reached[4 * a + valuation / 64] |= 1 << (valuation % 64));
        reached[1024 + valuation / 64] |= 1 << (valuation % 64);
    }
    storage
}

/// No pair, one, or a few, amid ones that are not looked at. The verdict is by the outputs of their first
/// parts.
#[test]
fn a_few_pairs_amid_ones() {
    let mut random = Random::new(806);
    let mut seen = Seen::default();
    for turn in 0..600 {
        let sheet = random::small(&mut random, if turn % 3 == 0 { 8 } else { 6 });
        let (m, n) = (sheet[5] as usize, sheet[6] as usize);
        let size = 1 << (m + n);
        let pairs: Vec<(usize, usize)> = (0..random.pick(&[0, 1, 1, 2, 3, 5]))
            .map(|_| (random.below(size), if random.one_in(3) { size } else { random.below(size) }))
            .collect();
        let mut held = Held { storage: ones_around(size, &pairs), ..Held::fresh() };
        consistent(&mut random, &mut held, 1, n);
        let completions: Vec<u8> = pairs.iter().map(|&(a, _)| (a >> m) as u8).collect();
        let found = ask_all(&sheet, &mut held);
        let by_outputs = expected(n, |outputs| monitor::together_in(&completions, outputs));
        assert_eq!(found, by_outputs, "{pairs:?}, sheet {}", hex(&sheet));
        seen.count(n, &found);
    }
    seen.expect_larger(100);
}

/// A single pair, from each row and each end in turn, is enough for a verdict.
#[test]
fn every_pair_alone() {
    let mut random = Random::new(807);
    for (m, n) in [(1, 1), (1, 2), (2, 2), (3, 2), (2, 4), (4, 3), (1, 7), (6, 2)] {
        let (sheet, size) = (cases::counts(m, n, 255), 1 << (m + n));
        let mut held = Held { storage: ones_around(size, &[]), ..Held::fresh() };
        consistent(&mut random, &mut held, 1, n as usize);
        let every = 0x7F >> (7 - n);
        assert_eq!(ask(&sheet, &mut held, every), Ok(BROKEN));
        for a in 0..size {
            // The row's first and last place, the end, and some other places.
            let places = [0, size - 1, size, random.below(size), random.below(size)];
            for b in places {
                let (word, place) = if b == size { (1024 + a / 64, a) } else { (4 * a + b / 64, b) };
                let (word, bit) = (SET_WORDS + word, 1 << (place % 64));
                held.storage[word] ^= bit;
                let all_true = a >> m == every as usize;
                assert_eq!(ask(&sheet, &mut held, every), Ok(all_true as u32), "({a}, {b}), {m} inputs, {n} outputs");
                assert_eq!(ask(&sheet, &mut held, 0), Ok(TRUE));
                held.storage[word] ^= bit;
            }
        }
    }
}

/// The record says whether there was a round, and the storage what it left.
#[test]
fn records_of_other_rounds() {
    let mut random = Random::new(808);
    for _ in 0..200 {
        let subject = Subject::new(random::small(&mut random, 6));
        let n = subject.accepted().sheet.outputs();
        let mut kept = Kept::new(&subject, anything(&mut random));
        // As if rounds had been heard that left no pair.
        let mut later = kept.held.clone();
        consistent(&mut random, &mut later, 5, n);
        assert_eq!(ask_all(&subject.sheet, &mut later), expected(n, |_| Verdict::Broken));
        for _ in 0..random.range(1, 4) {
            let letters = random.round_along(&kept.book, 30);
            assert_eq!(kept.agree(Call::Round(letters)), 0);
        }
        let found = ask_all(&subject.sheet, &mut kept.held);
        // The same storage with the record of a full journal, and with a fresh one.
        let mut full = kept.held.clone();
        consistent(&mut random, &mut full, MAX_ROUNDS, n);
        assert_eq!(ask_all(&subject.sheet, &mut full), found);
        let mut fresh = Held { record: vec![0; 30], ..kept.held };
        let refused: Vec<Answer> = found.into_iter().map(|answer| Err(answer.err().unwrap_or(14))).collect();
        assert_eq!(ask_all(&subject.sheet, &mut fresh), refused);
    }
}

/// A journal with questions between its rounds, and without: the same answers, record and storage.
#[test]
fn questions_change_nothing() {
    let mut random = Random::new(809);
    let mut numbers = [0; 25];
    for _ in 0..400 {
        let subject = Subject::new(random::small(&mut random, 6));
        let held = anything(&mut random);
        let mut asked = Kept::new(&subject, held.clone());
        let mut quiet = Kept::new(&subject, held);
        let n = asked.outputs();
        for _ in 0..random.range(1, 10) {
            for _ in 0..random.below(4) {
                let outputs = if random.one_in(4) { random.byte() } else { random.below(1 << n) as u8 };
                numbers[asked.agree(Call::Together(outputs)) as usize] += 1;
            }
            let made = match random.below(10) {
                0 => Call::Close,
                1 => Call::Round(random.any_set(quiet.book.inputs())),
                _ => Call::Round(random.round_along(&quiet.book, 40)),
            };
            let number = quiet.agree(made);
            assert_eq!(asked.agree(made), number);
            assert_eq!((&asked.held.storage, &asked.held.record), (&quiet.held.storage, &quiet.held.record));
            let written = if number == 0 { n } else { 0 };
            assert_eq!(asked.held.answer[..written], quiet.held.answer[..written]);
        }
    }
    assert!([0, 12, 14, 24].iter().all(|&number| numbers[number] >= 50), "{numbers:?}");
}

/// Any sheet, storage sometimes short, records of any kind, wrong sizes, and any set of outputs.
#[test]
fn random_questions() {
    let mut random = Random::new(810);
    let mut numbers = [0; 256];
    for _ in 0..2500 {
        let bytes = match random.below(6) {
            0 => random::damaged(&mut random),
            1 => random::sparse(&mut random),
            _ => random::small(&mut random, 5),
        };
        let subject = Subject::new(bytes);
        let outputs = subject.monitor.as_ref().map_or(1, |monitor| monitor.sheet.outputs());
        for _ in 0..6 {
            let mut held = anything(&mut random);
            forged::record(&mut random, &mut held, outputs);
            if random.one_in(8) {
                held.storage.truncate(random.pick(&[0, 1, 2056, 3083]));
            }
            if random.one_in(12) {
                held.record.resize(random.pick(&[0, 29, 31]), 1);
            }
            if random.one_in(12) {
                held.answer.truncate(random.pick(&[0, 1, 15]));
            }
            let set = if random.one_in(4) { random.byte() } else { random.below(1 << outputs) as u8 };
            let before = held.clone();
            let number = subject.agree(&mut held, Call::Together(set));
            numbers[number as usize] += 1;
            // All that a question may write.
            held.answer.iter_mut().zip(&before.answer).take((number == 0) as usize).for_each(|(new, old)| *new = *old);
            assert!(held == before, "{number}: sheet {}", hex(&subject.sheet));
        }
    }
    let fewest = |wanted: &[usize], times| wanted.iter().all(|&number| numbers[number] >= times);
    assert!(fewest(&[1, 2, 3, 4, 5, 6, 7, 8, 9, 10], 30), "{:?}", &numbers[..25]);
    assert!(fewest(&[0, 12, 14, 15, 18, 24, 255], 100), "{:?}", &numbers[..25]);
}

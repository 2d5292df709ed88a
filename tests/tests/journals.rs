//! The library's preparation, rounds and closings against the outside monitor and its book.

use outside::compare::{Kept, Subject};
use outside::forged::{self, anything, consistent};
use outside::journal::{call_of_line, round, Call, Held, MAX_ROUNDS, STORAGE_WORDS};
use outside::letters::{Heard, LetterSet};
use outside::library::{self, call};
use outside::monitor::{self, Monitor, Verdict};
use outside::pairs::{Pairs, SET_WORDS};
use outside::random::{self, Random};
use outside::sheet::with_version;
use outside::{cases, hex, shares, versions};
use std::fmt::Debug;

/// How often each number and each verdict came up.
struct Seen {
    numbers: [usize; 256],
    verdicts: [usize; 4],
    closing: [usize; 4],
}

impl Seen {
    fn nothing() -> Seen {
        Seen { numbers: [0; 256], verdicts: [0; 4], closing: [0; 4] }
    }

    fn count(&mut self, call: Call, number: u32, answer: &[u32], outputs: usize) {
        self.numbers[number as usize] += 1;
        let verdicts = match call {
            Call::Round(_) => &mut self.verdicts,
            Call::Close => &mut self.closing,
            _ => return,
        };
        if number == 0 {
            answer[..outputs].iter().for_each(|&verdict| verdicts[verdict as usize] += 1);
        }
    }

    /// Each verdict came up so often at least, in rounds and in closings.
    fn expect_verdicts(&self, times: usize) {
        let all = [self.verdicts, self.closing];
        assert!(all.iter().flatten().all(|&verdicts| verdicts >= times), "{all:?}");
    }

    fn expect_numbers(&self, numbers: &[usize], times: usize) {
        assert!(numbers.iter().all(|&number| self.numbers[number] >= times), "{:?}", &self.numbers[..25]);
    }
}

/// The session of paper 01 with the library alone.
#[test]
fn whole_session() {
    let sheet = cases::session_sheet();
    let mut held = Held { storage: vec![u64::MAX; STORAGE_WORDS], record: vec![9; 30], answer: vec![9; 16] };
    assert_eq!(call(&sheet, &mut held, Call::Prepare), 0);
    assert_eq!((held.record.clone(), &held.answer[..3]), (vec![0; 30], &[44, 2, 9][..]));
    let rounds = [("10", [2, 1]), ("?1", [1, 1]), ("1?", [2, 1]), ("00", [1, 1]), ("01", [3, 3])];
    for (line, verdicts) in rounds {
        assert_eq!(call(&sheet, &mut held, call_of_line(line)), 0);
        assert_eq!(held.answer[..2], verdicts, "{line}");
    }
    let storage = held.storage.clone();
    assert_eq!(call(&sheet, &mut held, Call::Close), 0);
    assert_eq!(held.answer[..4], [3, 3, 400, 800]);
    assert_eq!(held.answer[4..], [9; 12]);
    assert_eq!(held.record[..10], [5, 1, 2, 0, 2, 1, 4, 0, 0, 1]);
    assert_eq!(held.record[10..], [0; 20]);
    assert_eq!(held.storage, storage);
}

#[test]
fn explicit_journals() {
    for case in cases::journals() {
        let subject = Subject::new(case.sheet);
        for fill in [0, u64::MAX] {
            let held = Held { storage: vec![fill; STORAGE_WORDS + 2], ..Held::fresh() };
            let mut kept = Kept::new(&subject, held);
            for (line, expected) in &case.calls {
                let printed = match kept.agree(call_of_line(line)) {
                    0 => kept.printed(),
                    number => number.to_string(),
                };
                assert_eq!(printed, *expected, "{}: {line}", case.name);
            }
        }
    }
}

#[test]
fn explicit_preparations() {
    for case in cases::preparations() {
        let subject = Subject::new(case.sheet);
        for fill in [0, u64::MAX, 0xA5A5_A5A5_A5A5_A5A5] {
            let mut held = Held { storage: vec![fill; STORAGE_WORDS + 1], ..Held::fresh() };
            assert_eq!(subject.agree(&mut held, Call::Prepare), 0, "{}", case.name);
            assert_eq!(held.answer[..2], [case.live as u32, case.reach as u32], "{}", case.name);
            let ones: u32 = held.storage[..STORAGE_WORDS].iter().map(|word| word.count_ones()).sum();
            assert_eq!(ones as usize, case.live, "{}", case.name);
        }
    }
}

#[test]
fn explicit_refusals() {
    for case in cases::journal_refusals() {
        let subject = Subject::new(case.sheet);
        let mut held = case.held.clone();
        assert_eq!(subject.agree(&mut held, case.call), case.number, "{}", case.name);
        assert!(case.number == 0 || held == case.held, "{}", case.name);
    }
}

/// The counts and answers of outputs that the sheet does not have.
#[test]
fn junk_beyond_the_outputs_is_kept() {
    let subject = Subject::new(cases::plain(1, &["40", "50"]));
    let mut held = cases::forged(3, 0, &[[1, 1, 1, 0], [0, 3, 0, 0]]);
    for made in [round(0b10), round(0b11), Call::Close] {
        assert_eq!(subject.agree(&mut held, made), 0);
        assert_eq!(held.record[10..], [0xDEAD_BEEF; 20]);
        assert_eq!(held.answer[4..], [7; 12]);
    }
    assert_eq!(held.record[..2], [5, 1]);
}

/// Traces of this sheet end after 64 rounds, or 128, and so on.
#[test]
fn a_counter_far_from_the_end() {
    let subject = Subject::new(cases::counter());
    for last in [1, 63, 64, 65, 128] {
        let mut kept = Kept::new(&subject, Held::fresh());
        for rounds_before in 0..last {
            assert_eq!(kept.agree(round(0b11)), 0);
            let bits: String = (0..6).map(|bit| if rounds_before >> bit & 1 == 1 { '1' } else { '0' }).collect();
            assert_eq!(kept.printed(), bits + "1");
        }
        assert_eq!(kept.agree(Call::Close), 0);
        assert_eq!(kept.printed(), if last % 64 == 0 { "1111111" } else { "!!!!!!!" });
    }
}

#[test]
fn a_register_thousands_of_rounds_from_the_end() {
    let mut random = Random::new(31);
    let subject = Subject::new(cases::register());
    for unknown in [0, 30, 100] {
        let mut kept = Kept::new(&subject, anything(&mut random));
        for _ in 0..40 {
            let letters = random.round_along(&kept.book, unknown);
            assert_eq!(kept.agree(Call::Round(letters)), 0);
            assert!(!kept.printed().contains('!'));
        }
        assert_eq!(kept.agree(Call::Close), 0);
    }
}

/// Plays a journal of rounds, closings and refused calls, and what comes after closing.
fn play(random: &mut Random, subject: &Subject, seen: &mut Seen) {
    let mut kept = Kept::new(subject, anything(random));
    let (inputs, unknown) = (kept.book.inputs(), random.pick(&[0, 30, 30, 60, 100]));
    // Letters without any order soon break an assumption; those along a completion do not.
    let along = random.pick(&[0, 90, 100]);
    let calls = random.range(1, 24);
    for _ in 0..calls {
        let made = match random.below(100) {
            0..=3 => Call::Close,
            4..=9 => Call::Round(random.any_set(inputs)),
            _ if random.below(100) < along => Call::Round(random.round_along(&kept.book, unknown)),
            _ => Call::Round(random.round(inputs, unknown)),
        };
        let number = kept.agree(made);
        seen.count(made, number, &kept.held.answer, kept.outputs());
    }
    let after = [LetterSet::all(inputs), LetterSet(0), random.any_set(inputs)].map(Call::Round);
    for made in [Call::Close, Call::Close].into_iter().chain(after) {
        let number = kept.agree(made);
        seen.count(made, number, &kept.held.answer, kept.outputs());
    }
}

#[test]
fn random_journals() {
    let mut random = Random::new(32);
    let mut seen = Seen::nothing();
    for _ in 0..2500 {
        let subject = Subject::new(random::small(&mut random, 5));
        play(&mut random, &subject, &mut seen);
    }
    seen.expect_numbers(&[0, 12, 14, 21], 100);
    seen.expect_verdicts(300);
}

#[test]
fn random_journals_of_all_sizes() {
    let mut random = Random::new(33);
    let mut seen = Seen::nothing();
    // Eight sheets of each of the 27 sizes.
    let mut sizes = [[0; 8]; 7];
    while sizes.iter().flatten().sum::<usize>() < 27 * 8 {
        let bytes = random::accepted(&mut random);
        let times = &mut sizes[bytes[5] as usize][bytes[6] as usize];
        if *times < 8 {
            *times += 1;
            play(&mut random, &Subject::new(bytes), &mut seen);
        }
    }
    seen.expect_verdicts(40);
}

/// Journals of sheets that say the same in both versions: all that is returned, lent and handed in is
/// the same. A sheet that compares two values is unknown to version 1, and nothing is altered.
#[test]
fn twins() {
    let mut random = Random::new(41);
    let mut seen = Seen::nothing();
    for turn in 0..700 {
        let most = if turn % 10 == 0 { 8 } else { 6 };
        let [first, second] = versions::twins(&mut random, |random| random::small(random, most));
        let changed = Subject::new(with_version(&second, 1));
        let subject = Subject::new(second);
        let held = anything(&mut random);
        let mut other = held.clone();
        let mut kept = Kept::new(&subject, held);
        assert_eq!(call(&first, &mut other, Call::Prepare), 0);
        let unknown = random.pick(&[0, 30, 60, 100]);
        for _ in 0..random.range(1, 8) {
            let made = match random.below(12) {
                0 => Call::Close,
                1 => Call::Round(random.any_set(kept.book.inputs())),
                _ => Call::Round(random.round_along(&kept.book, unknown)),
            };
            let number = kept.agree(made);
            seen.count(made, number, &kept.held.answer, kept.outputs());
            assert_eq!(call(&first, &mut other, made), number);
            assert!(kept.held == other, "{made:?}, sheets {} and {}", hex(&first), hex(&subject.sheet));
            if subject.accepted().sheet.compares() {
                for made in [Call::Prepare, made, Call::Close] {
                    assert_eq!(changed.agree(&mut other, made), 7);
                }
                assert!(kept.held == other, "{made:?}, sheet {}", hex(&changed.sheet));
            }
        }
    }
    seen.expect_numbers(&[0, 12, 21], 100);
    seen.expect_verdicts(20);
}

/// A journal of the library, with nothing between it and verdicts found by trying letters.
struct Tried<'a> {
    bytes: &'a [u8],
    held: Held,
    seen: &'a mut Seen,
}

impl<'a> Tried<'a> {
    fn new(random: &mut Random, bytes: &'a [u8], seen: &'a mut Seen) -> Tried<'a> {
        let mut held = anything(random);
        assert_eq!(call(bytes, &mut held, Call::Prepare), 0);
        Tried { bytes, held, seen }
    }

    /// A call that is accepted and has these verdicts; the last of these rounds is the journal's last.
    fn expect(&mut self, made: Call, verdicts: &[Verdict], rounds: &impl Debug) {
        assert_eq!(call(self.bytes, &mut self.held, made), 0);
        let numbers: Vec<u32> = verdicts.iter().map(|&verdict| verdict as u32).collect();
        let found = &self.held.answer[..numbers.len()];
        assert_eq!(found, numbers, "{made:?}, rounds {rounds:?}, sheet {}", hex(self.bytes));
        self.seen.count(made, 0, &self.held.answer, numbers.len());
    }
}

/// Compares a journal over all lists of letters that are long enough, while there are at most so many.
fn try_all_letters(random: &mut Random, bytes: &[u8], most: usize, seen: &mut Seen) {
    let Monitor { sheet, reach, .. } = Monitor::new(bytes).expect("made to be accepted");
    let mut tried = Tried::new(random, bytes, seen);
    let (unknown, mut rounds) = (random.pick(&[0, 30, 60, 100]), Vec::new());
    for _ in 0..random.range(1, 5) {
        let letters = random.round(sheet.inputs, unknown);
        rounds.push(letters);
        let further = reach + random.below(2);
        if monitor::lists(&sheet, &rounds, further) > most {
            rounds.pop();
            break;
        }
        tried.expect(Call::Round(letters), &monitor::by_trying(&sheet, &rounds, 0..=further), &rounds);
    }
    if !rounds.is_empty() {
        tried.expect(Call::Close, &monitor::by_trying(&sheet, &rounds, 0..=0), &rounds);
    }
}

#[test]
fn small_journals_by_trying_all_letters() {
    let mut random = Random::new(34);
    let mut seen = Seen::nothing();
    for _ in 0..1500 {
        let bytes = random::small(&mut random, 4);
        try_all_letters(&mut random, &bytes, 256, &mut seen);
    }
    seen.expect_verdicts(50);
}

/// Four inputs and more, so that sets have up to 64 letters.
#[test]
fn journals_of_many_inputs_by_trying_all_letters() {
    let mut random = Random::new(41);
    let mut seen = Seen::nothing();
    for _ in 0..300 {
        let bytes = random::wide(&mut random);
        try_all_letters(&mut random, &bytes, 5000, &mut seen);
    }
    seen.expect_verdicts(5);
}

/// Sets that the library makes from masks give the verdicts over the lists whose letters match these.
#[test]
fn masks_by_trying_all_letters() {
    let mut random = Random::new(42);
    let mut seen = Seen::nothing();
    for _ in 0..1500 {
        let bytes = random::small(&mut random, 4);
        let Monitor { sheet, reach, .. } = Monitor::new(&bytes).expect("made to be accepted");
        let mut tried = Tried::new(&mut random, &bytes, &mut seen);
        let (unknown, mut rounds) = (random.pick(&[0, 30, 60, 100]), Vec::new());
        // At most 1,024 lists of each length.
        for _ in 0..(10 / sheet.inputs).saturating_sub(reach).min(4) {
            let heard = random.heard(sheet.inputs, unknown);
            rounds.push(heard);
            let made = Call::Round(made_by_library(sheet.inputs, heard));
            tried.expect(made, &monitor::by_trying_masks(&sheet, &rounds, 0..=reach), &rounds);
        }
        if !rounds.is_empty() {
            tried.expect(Call::Close, &monitor::by_trying_masks(&sheet, &rounds, 0..=0), &rounds);
        }
    }
    seen.expect_verdicts(50);
}

fn made_by_library(inputs: usize, heard: Heard) -> LetterSet {
    let mut letters = 0;
    assert_eq!(library::letters(inputs as u8, heard.known, heard.value, &mut letters), 0);
    LetterSet(letters)
}

/// Journals of one sheet and the same calls, on storage that held different things before.
#[test]
fn storage_before_preparation_does_not_matter() {
    let mut random = Random::new(35);
    for _ in 0..60 {
        let subject = Subject::new(random::small(&mut random, 7));
        let other = random::accepted(&mut random);
        let rounds: Vec<LetterSet> = (0..6).map(|_| random.round(subject.accepted().sheet.inputs, 40)).collect();
        let mut used = Held::fresh();
        assert_eq!(call(&other, &mut used, Call::Prepare), 0);
        assert_eq!(call(&other, &mut used, Call::Round(LetterSet::all(other[5] as usize))), 0);
        let mut left = Vec::new();
        for held in [Held::fresh(), used, anything(&mut random), anything(&mut random)] {
            let after = held.storage[STORAGE_WORDS..].to_vec();
            let mut kept = Kept::new(&subject, held);
            for &letters in &rounds {
                assert_eq!(kept.agree(Call::Round(letters)), 0);
            }
            assert_eq!(kept.agree(Call::Close), 0);
            assert_eq!(kept.held.storage[STORAGE_WORDS..], after);
            left.push((kept.held.storage[..STORAGE_WORDS].to_vec(), kept.held.record));
        }
        assert!(left.iter().all(|each| *each == left[0]), "sheet {}", hex(&subject.sheet));
    }
}

/// Rounds and closings follow the same steps on whatever sets they find. What lies at or beyond the
/// number of valuations does not matter: it is 0 afterwards in the numbers in use, and elsewhere as
/// it was found.
#[test]
fn unprepared_storage() {
    let mut random = Random::new(36);
    let mut seen = Seen::nothing();
    for turn in 0..600 {
        let most = if turn % 6 == 0 { 8 } else { 6 };
        let subject = Subject::new(random::small(&mut random, most));
        let (size, n) = (subject.accepted().size(), subject.accepted().sheet.outputs());
        let mut held = anything(&mut random);
        if random.one_in(3) {
            // A live set as preparation leaves it, the reached set found.
            held.storage[..SET_WORDS].copy_from_slice(&subject.accepted().live.to_words());
        }
        let rounds = random.pick(&[0, 1, 2, 1000]);
        consistent(&mut random, &mut held, rounds, n);
        let mut cleared = held.clone();
        for set in cleared.storage[..STORAGE_WORDS].chunks_mut(SET_WORDS) {
            set.copy_from_slice(&Pairs::from_words(size, set).to_words());
        }
        for _ in 0..random.range(1, 3) {
            let made = if random.one_in(5) {
                Call::Close
            } else {
                let unknown = random.pick(&[0, 50, 100]);
                Call::Round(random.round(subject.accepted().sheet.inputs, unknown))
            };
            let number = subject.agree(&mut held, made);
            seen.count(made, number, &held.answer, n);
            assert_eq!(call(&subject.sheet, &mut cleared, made), number);
            assert_eq!((&held.record, &held.answer), (&cleared.record, &cleared.answer));
            if matches!(made, Call::Round(_)) && number == 0 {
                for set in [1, 2] {
                    let in_use = |held: &Held| {
                        let words = &held.storage[set * SET_WORDS..(set + 1) * SET_WORDS];
                        [&words[..4 * size], &words[1024..]].concat()
                    };
                    assert_eq!(in_use(&held), in_use(&cleared));
                }
            }
        }
    }
    seen.expect_verdicts(30);
}

/// A fresh record with a reached set from earlier rounds, and rounds in a record whose reached set
/// is empty.
#[test]
fn the_record_decides_which_round_is_the_first() {
    let mut random = Random::new(37);
    let mut broken = 0;
    for _ in 0..300 {
        let subject = Subject::new(random::small(&mut random, 6));
        let (m, n) = (subject.accepted().sheet.inputs, subject.accepted().sheet.outputs());
        let mut kept = Kept::new(&subject, anything(&mut random));
        let prepared = kept.held.clone();
        for _ in 0..random.range(1, 4) {
            let letters = random.round_along(&kept.book, 30);
            assert_eq!(kept.agree(Call::Round(letters)), 0);
        }
        let made = Call::Round(random.round(m, 50));
        // Again from the start, on storage that was used.
        let mut again = Held { record: vec![0; 30], ..kept.held };
        let mut first = prepared.clone();
        assert_eq!(subject.agree(&mut again, made), 0);
        assert_eq!(subject.agree(&mut first, made), 0);
        assert_eq!((&again.storage, &again.record), (&first.storage, &first.record), "sheet {}", hex(&subject.sheet));
        // As if rounds had been heard that left no pair.
        let mut later = prepared;
        consistent(&mut random, &mut later, 5, n);
        assert_eq!(subject.agree(&mut later, made), 0);
        assert!(later.answer[..n].iter().all(|&verdict| verdict == 3));
        broken += (first.answer[0] == 3) as usize;
    }
    assert!(broken <= 150, "{broken} of 300 sheets are broken in round 1");
}

/// Goes on from records with almost 1,000,000 rounds until no round is taken.
#[test]
fn the_last_rounds() {
    let mut random = Random::new(38);
    for _ in 0..100 {
        let subject = Subject::new(random::small(&mut random, 5));
        let (m, n) = (subject.accepted().sheet.inputs, subject.accepted().sheet.outputs());
        let mut held = anything(&mut random);
        assert_eq!(subject.agree(&mut held, Call::Prepare), 0);
        assert_eq!(subject.agree(&mut held, Call::Round(LetterSet::all(m))), 0);
        consistent(&mut random, &mut held, MAX_ROUNDS - 3, n);
        for number in [0, 0, 0, 13, 13] {
            assert_eq!(subject.agree(&mut held, Call::Round(random.round(m, 30))), number);
        }
        assert_eq!(held.record[0], MAX_ROUNDS);
        for bad in [0, 1 << (1 << m), 1 << (1 << m) | 1] {
            assert_eq!(subject.agree(&mut held, round(bad)), 21);
        }
        assert_eq!(subject.agree(&mut held, Call::Close), 0);
        assert_eq!(subject.agree(&mut held, round(0)), 12);
    }
}

/// Closings of forged records, with counts at halves and beside them, and of any number of rounds.
#[test]
fn shares_of_counts() {
    let subject = Subject::new(cases::plain(1, &["40"; 7]));
    let mut random = Random::new(39);
    let mut held = anything(&mut random);
    for (rounds, counts) in shares::cases() {
        for seven in counts.chunks(7) {
            close_with(&subject, &mut random, &mut held, rounds, seven);
        }
    }
    for _ in 0..1000 {
        let rounds = random.range(1, MAX_ROUNDS as usize);
        let counts = [(); 7].map(|_| random.below(rounds + 1) as u32);
        close_with(&subject, &mut random, &mut held, rounds as u32, &counts);
    }
    for (count, rounds, expected) in [(1, 16, 62), (3, 16, 188), (500, 1_000_000, 0), (999_500, 1_000_000, 1000)] {
        close_with(&subject, &mut random, &mut held, rounds, &[count]);
        assert_eq!(held.answer[7], expected, "{count} of {rounds}");
    }
}

/// Closes a journal of so many rounds in which the first outputs have so many true ones.
fn close_with(subject: &Subject, random: &mut Random, held: &mut Held, rounds: u32, true_rounds: &[u32]) {
    consistent(random, held, rounds, 7);
    for (k, &count) in true_rounds.iter().enumerate() {
        let others = random.below((rounds - count) as usize + 1) as u32;
        held.record[2 + 4 * k..6 + 4 * k].copy_from_slice(&[count, 0, others, rounds - count - others]);
    }
    assert_eq!(subject.agree(held, Call::Close), 0);
}

/// Any sheet, storage sometimes short, records of any kind, sets of any letters.
#[test]
fn random_calls() {
    let mut random = Random::new(40);
    let mut seen = Seen::nothing();
    for _ in 0..2500 {
        let bytes = match random.below(6) {
            0 => random::damaged(&mut random),
            1 => random::sparse(&mut random),
            _ => random::small(&mut random, 5),
        };
        let subject = Subject::new(bytes);
        let outputs = subject.monitor.as_ref().map_or(1, |monitor| monitor.sheet.outputs());
        let inputs = subject.monitor.as_ref().map_or(1, |monitor| monitor.sheet.inputs);
        let mut held = anything(&mut random);
        for _ in 0..6 {
            forged::record(&mut random, &mut held, outputs);
            let length = STORAGE_WORDS + random.below(3);
            let short = random.one_in(8);
            held.storage.resize(if short { random.pick(&[0, 1, 2056, 3083]) } else { length }, 0x0F1E_2D3C_4B5A_6978);
            let made = match random.below(8) {
                0 => Call::Prepare,
                1 | 2 => Call::Close,
                3 => Call::Round(random.any_set(inputs)),
                _ => Call::Round(random.round(inputs, 40)),
            };
            let number = subject.agree(&mut held, made);
            seen.count(made, number, &held.answer, outputs);
        }
    }
    seen.expect_numbers(&[0, 1, 2, 3, 4, 5, 6, 7, 8, 9, 10], 36);
    seen.expect_numbers(&[12, 13, 14, 15, 18, 21], 100);
    seen.expect_verdicts(36);
}

//! The Rust package's journals against the book, and its sets against the outside ones: verdicts,
//! refusals, counts and shares, whatever a round is handed, sets of outputs, and the two numbers of a
//! preparation.

use jigwaret::{raw, Heard, Journal, LetterSet, Refusal, Sheet, Verdict};
use outside::cases;
use outside::journal::{print, Book, Held};
use outside::letters;
use outside::monitor::Monitor;
use outside::random::{self, Random};

fn refused(number: u32) -> Refusal {
    Refusal::try_from(number).expect("a rule's number")
}

/// The number of a set of the package, or its refusal.
fn bits(set: Result<LetterSet, Refusal>) -> Result<u64, Refusal> {
    set.map(LetterSet::bits)
}

/// The same for the outside sets.
fn expected_bits(heard: letters::Heard, inputs: u8) -> Result<u64, Refusal> {
    heard.letters(inputs as usize).map(|set| set.0).map_err(refused)
}

/// Masks without a value bit that is not known, said input by input.
fn said(heard: letters::Heard) -> Heard {
    let known = (0..8).filter(|input| heard.known >> input & 1 == 1);
    known.fold(Heard::nothing(), |built, input| built.with(input, heard.value >> input & 1 == 1))
}

#[test]
fn sets_of_masks() {
    let mut random = Random::new(62);
    let sheets = [1, 2, 3, 4, 5, 6].map(|inputs| Sheet::new(cases::plain(inputs, &["40"])).unwrap());
    for _ in 0..20_000 {
        let (inputs, heard) = (random.below(9) as u8, random.masks());
        let set = LetterSet::from_masks(inputs, heard.known, heard.value);
        assert_eq!(bits(set), expected_bits(heard, inputs), "{inputs} inputs, {heard:?}");
        let heard = letters::Heard { value: heard.value & heard.known, ..heard };
        assert_eq!(bits(said(heard).letters(inputs)), expected_bits(heard, inputs), "{inputs} inputs, {heard:?}");
        let sheet = &sheets[random.below(6)];
        assert_eq!(bits(sheet.letters(said(heard))), expected_bits(heard, sheet.inputs() as u8), "{heard:?}");
    }
}

/// A set as the package has it, by its number or as a union of single letters.
fn handed(random: &mut Random, set: letters::LetterSet) -> LetterSet {
    if random.one_in(2) {
        return set.0.into();
    }
    let singles = set.letters().into_iter().map(|letter| LetterSet::from_bits(1 << letter));
    singles.fold(LetterSet::from_bits(0), |union, single| union | single)
}

fn compare(random: &mut Random, journal: &mut Journal, book: &mut Book) {
    let unknown = random.pick(&[0, 30, 100]);
    for _ in 0..random.range(1, 12) {
        let set = match random.below(4) {
            0 => random.any_set(book.inputs()),
            _ => random.round_along(book, unknown),
        };
        let found = journal.round(handed(random, set)).map(|verdicts| verdicts.to_string());
        let expected = book.round(set).map(|answer| print(&answer.verdicts)).map_err(refused);
        assert_eq!(found, expected, "{set:?}");
    }
    for _ in 0..2 {
        let found = journal.close().map(|closing| (closing.verdicts.to_string(), closing.shares));
        let expected = book.close().map(|answer| (print(&answer.verdicts), answer.shares)).map_err(refused);
        assert_eq!(found, expected);
    }
}

#[test]
fn random_journals() {
    let mut random = Random::new(61);
    for _ in 0..400 {
        let bytes = random::small(&mut random, 5);
        let monitor = Monitor::new(&bytes).expect("made to be accepted");
        let mut journal = Journal::prepare(Sheet::new(bytes).expect("made to be accepted")).expect("enough storage");
        let mut book = Book::new(&monitor);
        compare(&mut random, &mut journal, &mut book);
        assert_eq!((journal.live_pairs(), journal.reach()), (monitor.live.count(), monitor.reach));
        assert_eq!((journal.rounds() as usize, journal.is_closed()), (book.rounds.len(), book.closed));
        for output in 0..9 {
            let counts = journal.counts(output);
            let four = counts.map(|c| [c.true_rounds, c.false_rounds, c.open_rounds, c.broken_rounds]);
            assert_eq!(four.as_ref(), book.counts.get(output));
        }
    }
}

#[test]
fn live_pairs_and_reach() {
    let mut random = Random::new(63);
    let drawn = (0..300).map(|_| random::accepted(&mut random));
    for bytes in drawn.chain([cases::counter(), cases::register()]) {
        let monitor = Monitor::new(&bytes).expect("made to be accepted");
        let journal = Journal::prepare(Sheet::new(bytes).expect("made to be accepted")).expect("enough storage");
        assert_eq!((journal.live_pairs(), journal.reach()), (monitor.live.count(), monitor.reach));
    }
}

/// A journal answers about every set of outputs as the raw function does, and as the book: before its first
/// round, after each, and once it is closed.
#[test]
fn several_outputs_together() {
    let mut random = Random::new(64);
    for _ in 0..300 {
        let bytes = random::small(&mut random, 6);
        let monitor = Monitor::new(&bytes).expect("made to be accepted");
        let mut journal =
            Journal::prepare(Sheet::new(&bytes[..]).expect("made to be accepted")).expect("enough storage");
        let mut book = Book::new(&monitor);
        let Held { mut storage, mut record, mut answer } = Held::fresh();
        assert_eq!(raw::prepare(&bytes, &mut storage, &mut record, &mut answer), 0);
        let rounds = random.below(5);
        for turn in 0..=rounds + 1 {
            for (outputs, expected) in (0..=255).zip(book.every_set()) {
                let found = journal.together(outputs).map(Verdict::number);
                assert_eq!(found, expected.map(|verdict| verdict as u32).map_err(refused), "{outputs:#b}");
                let number = raw::together(&bytes, &storage, &record, outputs, &mut answer);
                assert_eq!(found, if number == 0 { Ok(answer[0]) } else { Err(refused(number)) }, "{outputs:#b}");
            }
            if turn < rounds {
                let set = random.round_along(&book, 40);
                journal.round(set.0.into()).expect("a round of the sheet");
                assert_eq!(raw::round(&bytes, &mut storage, &mut record, set.0, &mut answer), 0);
                book.round(set).expect("a round of the sheet");
            } else if turn == rounds && rounds > 0 {
                journal.close().expect("there was a round");
                assert_eq!(raw::close(&bytes, &storage, &mut record, &mut answer), 0);
                book.close().expect("there was a round");
            }
        }
    }
}

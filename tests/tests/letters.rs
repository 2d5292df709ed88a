//! The library's sets of letters: those that it makes from masks, and those that its rounds refuse.

use outside::cases::{only, plain};
use outside::journal::{Held, STORAGE_WORDS};
use outside::letters::{Heard, LetterSet};
use outside::random::Random;
use outside::{letter_table, library};

/// Makes a set where a number lies between two others, which stay as they were. Returns the number of the
/// refusal, and what is there afterwards.
fn letters(inputs: u8, heard: Heard, before: u64) -> (u32, u64) {
    const MARGIN: u64 = 0xA5A5_5A5A_C3C3_3C3C;
    let mut memory = [MARGIN, before, MARGIN];
    let number = library::letters(inputs, heard.known, heard.value, &mut memory[1]);
    assert_eq!([memory[0], memory[2]], [MARGIN; 2], "numbers around the set");
    (number, memory[1])
}

fn every_masks() -> impl Iterator<Item = Heard> {
    (0..=255).flat_map(|known| (0..=255).map(move |value| Heard { known, value }))
}

/// All masks for all numbers of inputs, against the letters that match. On a refusal the number that was
/// lent keeps its contents.
#[test]
fn every_pair_of_masks() {
    let mut sets = [0; 7];
    for inputs in 0..=255u8 {
        for heard in every_masks() {
            let before = u64::from_ne_bytes([heard.known, heard.value, inputs, 0x5A, 0, 0xFF, 0x81, 0x18]);
            let expected = match heard.letters(inputs as usize) {
                Ok(set) => (0, set.0),
                Err(number) => (number, before),
            };
            assert_eq!(letters(inputs, heard, before), expected, "{inputs} inputs, {heard:?}");
            if expected.0 == 0 {
                sets[inputs as usize] += 1;
            }
        }
    }
    // Each input was heard as 0, as 1, or not.
    assert_eq!(sets, [0, 3, 9, 27, 81, 243, 729]);
}

/// The set of masks is the table's entry whose digits say what was heard.
#[test]
fn entries_of_the_table() {
    for inputs in 1..=6u8 {
        for heard in every_masks().filter(|heard| heard.letters(inputs as usize).is_ok()) {
            let entry = letter_table::entry(letter_table::index(&heard.marks(inputs as usize)));
            assert_eq!(letters(inputs, heard, 0), (0, entry), "{inputs} inputs, {heard:?}");
        }
    }
}

/// What was there before plays no part.
#[test]
fn earlier_contents_do_not_matter() {
    for inputs in 1..=6u8 {
        for heard in every_masks() {
            let Ok(set) = heard.letters(inputs as usize) else { continue };
            for before in [0, u64::MAX, set.0, !set.0] {
                assert_eq!(letters(inputs, heard, before), (0, set.0), "{inputs} inputs, {heard:?}");
            }
        }
    }
}

/// A sheet and a prepared journal of it.
fn prepared(sheet: Vec<u8>) -> (Vec<u8>, Held) {
    let mut held = Held { storage: vec![u64::MAX; STORAGE_WORDS + 1], ..Held::fresh() };
    assert_eq!(library::prepare(&sheet, &mut held.storage, &mut held.record, &mut held.answer), 0);
    (sheet, held)
}

/// The same with so many inputs and a round that may have been any. Outputs are the first input, now and
/// one round earlier.
fn begun(inputs: u8) -> (Vec<u8>, Held) {
    let (sheet, mut held) = prepared(plain(inputs, &["40", "50"]));
    assert_eq!(round(&sheet, &mut held, LetterSet::all(inputs as usize)), 0);
    (sheet, held)
}

fn round(sheet: &[u8], held: &mut Held, set: LetterSet) -> u32 {
    library::round(sheet, &mut held.storage, &mut held.record, set.0, &mut held.answer)
}

/// A set that is refused by 21, and nothing else changes.
fn expect_refused(sheet: &[u8], held: &mut Held, set: LetterSet) {
    let before = held.clone();
    assert_eq!(round(sheet, held, set), 21, "{} inputs, {set:?}", sheet[5]);
    assert!(*held == before, "{} inputs, {set:?}", sheet[5]);
}

#[test]
fn the_empty_set() {
    for inputs in 1..=6 {
        let (sheet, mut held) = begun(inputs);
        expect_refused(&sheet, &mut held, LetterSet(0));
    }
}

/// Each letter beyond the inputs, alone and beside good ones. Nothing is cut off.
#[test]
fn every_letter_beyond() {
    let mut random = Random::new(81);
    for inputs in 1..=5 {
        let (sheet, mut held) = begun(inputs);
        let (m, every) = (inputs as usize, LetterSet::all(inputs as usize));
        for letter in 1 << m..64 {
            for beside in [0, 1, every.0, random.round(m, 0).0, random.round(m, 50).0] {
                expect_refused(&sheet, &mut held, LetterSet(1 << letter | beside));
            }
        }
        for beside in [LetterSet(0), every] {
            expect_refused(&sheet, &mut held, LetterSet(!every.0 | beside.0));
        }
    }
}

/// With six inputs every number but 0 is a set.
#[test]
fn every_number_of_six_inputs() {
    let mut random = Random::new(82);
    let (sheet, held) = begun(6);
    let singles = (0..64).map(|letter| LetterSet(1 << letter));
    let lacking_one = (0..64).map(|letter| LetterSet(!(1 << letter)));
    let others: Vec<LetterSet> = (0..200).map(|_| random.any_set(6)).filter(|set| set.0 != 0).collect();
    for set in singles.chain(lacking_one).chain(others) {
        let mut held = held.clone();
        assert_eq!(round(&sheet, &mut held, set), 0, "{set:?}");
        assert_eq!(held.answer[0], verdict_on_first_input(set), "{set:?}");
    }
}

/// What is known of input 0 where nothing else limits it.
fn verdict_on_first_input(set: LetterSet) -> u32 {
    let some = |value: u8| set.letters().iter().any(|letter| letter & 1 == value);
    match (some(1), some(0)) {
        (false, _) => 0,
        (_, false) => 1,
        _ => 2,
    }
}

/// Every set of one, two and three inputs, letter by letter: false if the set lacks it, true if it has no
/// other, and else open.
#[test]
fn every_set_of_few_inputs() {
    for inputs in 1..=3 {
        for letter in 0..1 << inputs {
            let (sheet, prepared) = prepared(plain(inputs as u8, &[&only(inputs, letter)]));
            for set in (1..1 << (1 << inputs)).map(LetterSet) {
                let mut held = prepared.clone();
                assert_eq!(round(&sheet, &mut held, set), 0);
                let expected = match (set.has(letter), set.letters().len()) {
                    (false, _) => 0,
                    (true, 1) => 1,
                    _ => 2,
                };
                assert_eq!(held.answer[0], expected, "{inputs} inputs, letter {letter}, {set:?}");
            }
        }
    }
}

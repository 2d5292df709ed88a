//! The library's evaluation of whole traces against the outside evaluator.

use outside::random::{self, Random};
use outside::sheet::{with_version, Sheet};
use outside::{cases, circular, hex, language, library, versions};

/// Bytes kept on each side of the lent buffer, which must stay as they were.
const MARGIN: usize = 32;

/// Evaluates into a buffer that holds `contents` and lies inside a larger one. Returns the number
/// and the buffer afterwards.
fn evaluate(sheet: &[u8], letters: &[u8], contents: &[u8]) -> (u32, Vec<u8>) {
    let margin: Vec<u8> = (0..MARGIN as u8).map(|byte| byte ^ 0xA5).collect();
    let mut memory = [&margin, contents, &margin].concat();
    let number = library::evaluate(sheet, letters, &mut memory[MARGIN..MARGIN + contents.len()]);
    assert_eq!(memory[..MARGIN], margin, "bytes before the buffer");
    assert_eq!(memory[MARGIN + contents.len()..], margin, "bytes after the buffer");
    (number, memory[MARGIN..MARGIN + contents.len()].to_vec())
}

/// Compares one call with the outside evaluator, the buffer included. Returns the number.
fn agree(sheet: &[u8], letters: &[u8], contents: &[u8]) -> u32 {
    let (number, after) = evaluate(sheet, letters, contents);
    let call = || format!("sheet {}, {} letters {:?}", hex(sheet), letters.len(), &letters[..letters.len().min(40)]);
    match language::evaluate(sheet, letters, contents.len()) {
        Ok(outputs) => {
            assert_eq!(number, 0, "{}", call());
            let (written, kept) = after.split_at(letters.len());
            if let Some(round) = (0..letters.len()).find(|&round| written[round] != outputs[round]) {
                panic!("round {}: {:#04x}, not {:#04x}: {}", round + 1, written[round], outputs[round], call());
            }
            assert_eq!(kept, &contents[letters.len()..], "bytes after the first N: {}", call());
            0
        }
        Err(expected) => {
            assert_eq!(number, expected, "{}", call());
            assert_eq!(after, contents, "buffer after a refusal: {}", call());
            expected
        }
    }
}

/// An accepted sheet, as bytes and as trees.
fn accepted(random: &mut Random) -> (Vec<u8>, Sheet) {
    let bytes = random::accepted(random);
    let sheet = circular::accept(&bytes).expect("made to be accepted");
    (bytes, sheet)
}

#[test]
fn explicit_traces() {
    for case in cases::traces() {
        let rounds = case.letters.len();
        for (room, fill) in [(rounds, 0x00), (rounds, 0xFF), (rounds + 1, 0xAA), (rounds + 100, 0xFF)] {
            let (number, after) = evaluate(&case.sheet, &case.letters, &vec![fill; room]);
            let expected = [case.outputs.clone(), vec![fill; room - rounds]].concat();
            assert_eq!((number, after), (0, expected), "{}", case.name);
        }
    }
}

#[test]
fn explicit_refusals() {
    for case in cases::evaluation_refusals() {
        for fill in [0x00, 0xFF, 0x5A] {
            let contents = vec![fill; case.room];
            let answer = evaluate(&case.sheet, &case.letters, &contents);
            assert_eq!(answer, (case.number, contents), "{}: {}", case.name, hex(&case.sheet));
        }
    }
}

#[test]
fn random_traces() {
    let mut random = Random::new(11);
    for _ in 0..6000 {
        let (bytes, sheet) = accepted(&mut random);
        let rounds = random.range(1, 40);
        let letters = random.letters(sheet.inputs, rounds);
        let room = rounds + random.below(20);
        let contents = random.bytes(room);
        assert_eq!(agree(&bytes, &letters, &contents), 0);
    }
}

/// The only list of bytes that satisfies the equations, found by trying all.
#[test]
fn small_traces_by_brute_force() {
    let mut random = Random::new(12);
    for _ in 0..2500 {
        let (bytes, sheet) = accepted(&mut random);
        let longest = 12 / sheet.outputs();
        let rounds = random.range(1, longest);
        let letters = random.letters(sheet.inputs, rounds);
        let (number, after) = evaluate(&bytes, &letters, &random.bytes(rounds));
        assert_eq!(number, 0);
        assert_eq!(vec![after], language::solutions(&sheet, &letters), "sheet {}, letters {letters:?}", hex(&bytes));
    }
}

#[test]
fn long_traces() {
    let mut random = Random::new(13);
    for turn in 0..120 {
        let (bytes, sheet) = accepted(&mut random);
        let rounds = if turn % 3 == 0 { language::MAX_LETTERS } else { random.range(41, 4096) };
        let letters = random.letters(sheet.inputs, rounds);
        let room = rounds + random.pick(&[0, 0, 1, 300]);
        let contents = random.bytes(room);
        assert_eq!(agree(&bytes, &letters, &contents), 0);
        let (_, after) = evaluate(&bytes, &letters, &contents);
        assert!(language::satisfies(&sheet, &letters, &after[..rounds]));
    }
}

/// Sheets that say the same in both versions have the same values.
#[test]
fn twins() {
    let mut random = Random::new(20);
    for turn in 0..2000 {
        let [first, second] = versions::twins(&mut random, random::accepted);
        let rounds = if turn % 100 == 0 { language::MAX_LETTERS } else { random.range(1, 60) };
        let letters = random.letters(second[5] as usize, rounds);
        let room = rounds + random.below(5);
        let contents = random.bytes(room);
        assert_eq!(agree(&second, &letters, &contents), 0);
        let [one, other] = [&first, &second].map(|sheet| evaluate(sheet, &letters, &contents));
        assert!(one == other, "sheets {} and {}", hex(&first), hex(&second));
    }
}

/// A sheet that compares two values is unknown to version 1, and nothing is written.
#[test]
fn comparisons_in_version_1() {
    let mut random = Random::new(22);
    let mut comparing = 0;
    for _ in 0..2000 {
        let (bytes, sheet) = accepted(&mut random);
        let letters = random.letters(sheet.inputs, 8);
        let number = agree(&with_version(&bytes, 1), &letters, &random.bytes(10));
        assert_eq!(number, if sheet.compares() { 7 } else { 0 });
        comparing += sheet.compares() as usize;
    }
    assert!(comparing >= 400, "{comparing}");
}

#[test]
fn long_zigzag_traces() {
    let mut random = Random::new(14);
    for _ in 0..40 {
        let bytes = random::zigzag(&mut random);
        let letters = random.letters(bytes[5] as usize, language::MAX_LETTERS);
        let contents = random.bytes(language::MAX_LETTERS + 1);
        assert_eq!(agree(&bytes, &letters, &contents), 0);
    }
}

/// Any sheet, letters sometimes out of range, buffers sometimes short.
#[test]
fn random_calls() {
    let mut random = Random::new(15);
    let mut seen = [0; 17];
    for _ in 0..30_000 {
        let bytes = if random.one_in(3) { random::damaged(&mut random) } else { random::well_formed(&mut random) };
        let inputs = if bytes.len() > 5 { bytes[5].clamp(1, 6) as usize } else { 1 };
        let rounds = random.below(9);
        let mut letters = random.letters(inputs, rounds);
        if rounds > 0 && random.one_in(4) {
            letters[random.below(rounds)] = random.byte();
        }
        if rounds > 0 && random.one_in(8) {
            letters[rounds - 1] |= 1 << inputs;
        }
        let room = if random.one_in(5) { random.below(rounds + 1) } else { rounds + random.below(5) };
        let contents = random.bytes(room);
        seen[agree(&bytes, &letters, &contents) as usize] += 1;
    }
    let possible: Vec<usize> = (0..=11).chain([16]).collect();
    assert!(possible.iter().all(|&number| seen[number] >= 100), "{seen:?}");
}

/// A letter out of range is refused wherever it stands, and nothing has been written by then.
#[test]
fn a_bad_letter_anywhere() {
    let mut random = Random::new(16);
    for inputs in 1..=6 {
        let sheet = cases::plain(inputs as u8, &["40 02"]);
        for bit in inputs..8 {
            for place in 0..12 {
                let mut letters = random.letters(inputs, 12);
                letters[place] |= 1 << bit;
                assert_eq!(agree(&sheet, &letters, &random.bytes(15)), 11);
            }
        }
        let mut letters = random.letters(inputs, language::MAX_LETTERS);
        letters[language::MAX_LETTERS - 1] = 1 << inputs;
        assert_eq!(agree(&sheet, &letters, &random.bytes(language::MAX_LETTERS)), 11);
    }
}

#[test]
fn earlier_contents_do_not_matter() {
    let mut random = Random::new(17);
    for _ in 0..1500 {
        let (bytes, sheet) = accepted(&mut random);
        let rounds = random.range(1, 30);
        let letters = random.letters(sheet.inputs, rounds);
        let fills = [vec![0; rounds], vec![0xFF; rounds], random.bytes(rounds), vec![0xFF << sheet.outputs(); rounds]];
        let answers = fills.map(|contents| evaluate(&bytes, &letters, &contents));
        assert!(answers.iter().all(|answer| *answer == answers[0] && answer.0 == 0), "sheet {}", hex(&bytes));
        // A buffer that holds the values already, or their complements, gives them again.
        let values = answers[0].1.clone();
        let complements: Vec<u8> = values.iter().map(|byte| !byte).collect();
        for contents in [values.clone(), complements] {
            assert_eq!(evaluate(&bytes, &letters, &contents), (0, values.clone()), "sheet {}", hex(&bytes));
        }
    }
}

#[test]
fn bits_beyond_the_outputs_are_clear() {
    let mut random = Random::new(18);
    for _ in 0..1500 {
        let (bytes, sheet) = accepted(&mut random);
        let letters = random.letters(sheet.inputs, 10);
        let (number, after) = evaluate(&bytes, &letters, &[0xFF; 10]);
        assert_eq!(number, 0);
        assert!(after.iter().all(|byte| *byte as u32 >> sheet.outputs() == 0), "sheet {}", hex(&bytes));
    }
}

/// The values are the same whichever output is the assumption, also where it is false.
#[test]
fn the_assumption_is_not_enforced() {
    let mut random = Random::new(19);
    let mut false_somewhere = 0;
    for _ in 0..800 {
        let (mut bytes, sheet) = accepted(&mut random);
        let letters = random.letters(sheet.inputs, 12);
        let contents = random.bytes(12);
        bytes[7] = 255;
        let without = evaluate(&bytes, &letters, &contents);
        for output in 0..sheet.outputs() as u8 {
            bytes[7] = output;
            assert_eq!(evaluate(&bytes, &letters, &contents), without, "sheet {}", hex(&bytes));
            false_somewhere += without.1.iter().any(|byte| byte >> output & 1 == 0) as usize;
        }
    }
    assert!(false_somewhere >= 500, "{false_somewhere}");
}

//! The fast monitor against the one written from the definitions.

use super::entries::{self, Journal, STORAGE_WORDS};
use super::letters::repeated;
use super::{trace, Sheet};
use crate::workloads;
use outside::cases::{self, bytes};
use outside::journal::{self, Call, Held, MAX_ROUNDS};
use outside::letters::{Heard, LetterSet};
use outside::monitor::Monitor;
use outside::random::{self, Random};
use outside::sheet::{byte_of_read, write_version, NO_ASSUMPTION};
use outside::{circular, hex, language, shares};

/// The same number on both sides.
fn judge(sheet: &[u8]) -> u32 {
    let number = circular::accept(sheet).err().unwrap_or(0);
    assert_eq!(Sheet::accept(sheet).err().unwrap_or(0), number, "{}", hex(sheet));
    number
}

fn call(sheet: &[u8], held: &mut Held, call: Call) -> u32 {
    let Held { storage, record, answer } = held;
    match call {
        Call::Prepare => entries::prepare(sheet, storage, record, answer),
        Call::Round(LetterSet(letters)) => entries::round(sheet, storage, record, letters, answer),
        Call::Together(outputs) => entries::together(sheet, storage, record, outputs, answer),
        Call::Close => entries::close(sheet, storage, record, answer),
    }
}

/// The same number, storage, record and answer on both sides.
fn agree(sheet: &[u8], monitor: &Result<Monitor, u32>, held: &mut Held, made: Call) -> u32 {
    let mut expected = held.clone();
    let number = journal::call(monitor, &mut expected, made);
    assert_eq!(call(sheet, held, made), number, "{made:?}, sheet {}", hex(sheet));
    assert!(*held == expected, "{made:?}, sheet {}", hex(sheet));
    number
}

#[test]
fn sheets() {
    for case in cases::sheets() {
        assert_eq!(judge(&case.sheet), case.number, "{}", case.name);
    }
    let mut random = Random::new(901);
    for turn in 0..20_000 {
        let sheet = match turn % 3 {
            0 => random::damaged(&mut random),
            1 => random::two_rings(&mut random),
            _ => random::well_formed(&mut random),
        };
        judge(&sheet);
    }
}

/// A sheet with one input and one output.
fn one_output(version: u16, expression: &[u8]) -> Vec<u8> {
    write_version(version, 1, NO_ASSUMPTION, &[expression.to_vec()])
}

#[test]
fn versions() {
    for version in 0..=u16::MAX {
        // Without inputs, rule 4 is the next to be broken.
        let sheet = write_version(version, 0, NO_ASSUMPTION, &[bytes("40")]);
        assert_eq!(judge(&sheet), if version == 1 || version == 2 { 4 } else { 3 });
    }
    for version in [1, 2] {
        for byte in 0..=u8::MAX {
            for values in 0..4 {
                judge(&one_output(version, &[vec![0x40; values], vec![byte]].concat()));
            }
        }
    }
    let cases = [
        ("40", [0, 0]),
        ("40 50 05", [7, 0]),
        ("05", [7, 8]),
        ("40 05", [7, 8]),
        ("40 05 40", [7, 8]),
        ("05 03", [7, 8]),
        ("03 05", [8, 8]),
        ("40 40 40 05", [7, 8]),
        ("40 40 05 05", [7, 8]),
        ("40 06", [7, 7]),
        ("40 42 05", [7, 7]),
        ("41 41 05", [7, 10]),
        ("40 41 05", [7, 10]),
        ("41 40 05", [7, 10]),
    ];
    for (expression, numbers) in cases {
        assert_eq!([1, 2].map(|version| judge(&one_output(version, &bytes(expression)))), numbers, "{expression}");
    }
}

#[test]
fn explicit_calls() {
    for case in cases::journal_refusals() {
        let mut held = case.held.clone();
        assert_eq!(agree(&case.sheet, &Monitor::new(&case.sheet), &mut held, case.call), case.number, "{}", case.name);
    }
    for case in cases::preparations() {
        let journal = Journal::prepare(Sheet::accept(&case.sheet).unwrap());
        assert_eq!((journal.live_pairs as usize, journal.reach), (case.live, case.reach), "{}", case.name);
    }
}

/// On storage that holds anything: any bits, few, or none.
#[test]
fn sets_of_outputs() {
    let mut random = Random::new(909);
    let mut seen = [0; 4];
    for turn in 0..600 {
        let sheet = random::small(&mut random, if turn % 4 == 0 { 8 } else { 6 });
        let (monitor, outputs) = (Monitor::new(&sheet), sheet[6] as usize);
        let mut held = Held::fresh();
        random.fill(&mut held.storage);
        let few = random.pick(&[1, 30, 300]);
        held.storage.iter_mut().filter(|_| !random.one_in(few)).for_each(|word| *word = 0);
        held.forge(1, 0, &vec![[0, 0, 1, 0]; outputs]);
        for _ in 0..8 {
            let set = random.below(1 << outputs) as u8;
            assert_eq!(agree(&sheet, &monitor, &mut held, Call::Together(set)), 0);
            seen[held.answer[0] as usize] += 1;
        }
    }
    assert!(seen.iter().all(|&times| times >= 50), "{seen:?}");
}

#[test]
fn shares_of_counts() {
    let sheet = cases::plain(1, &["40"]);
    let mut held = Held::fresh();
    for (rounds, counts) in shares::cases() {
        for count in counts {
            held.forge(rounds, 0, &[[count, rounds - count, 0, 0]]);
            assert_eq!(call(&sheet, &mut held, Call::Close), 0);
            assert_eq!(held.answer[1], shares::share(count, rounds), "{count} of {rounds}");
        }
    }
}

#[test]
fn deep_sheets() {
    for sheet in [cases::counter(), cases::register()] {
        let monitor = Monitor::new(&sheet);
        let journal = Journal::prepare(Sheet::accept(&sheet).unwrap());
        assert_eq!(journal.reach, monitor.as_ref().unwrap().reach);
        agree(&sheet, &monitor, &mut Held::fresh(), Call::Prepare);
    }
}

/// A journal on prepared storage, both ways of calling.
fn play(random: &mut Random, sheet: &[u8]) {
    let monitor = Monitor::new(sheet);
    let inputs = sheet[5] as usize;
    let mut held = Held::fresh();
    random.fill(&mut held.storage);
    assert_eq!(agree(sheet, &monitor, &mut held, Call::Prepare), 0);
    let mut kept = Journal::prepare(Sheet::accept(sheet).unwrap());
    assert_eq!(kept.live_pairs, held.answer[0]);
    assert_eq!(kept.reach, monitor.as_ref().unwrap().reach);
    let unknown = random.pick(&[0, 30, 100]);
    for _ in 0..random.range(1, 12) {
        let letters = if random.one_in(12) { random.any_set(inputs) } else { random.round(inputs, unknown) };
        let number = agree(sheet, &monitor, &mut held, Call::Round(letters));
        match kept.round(letters.0) {
            Ok(verdicts) => {
                assert!((0..sheet[6] as usize).all(|k| verdicts[k] as u32 == held.answer[k]));
                assert_eq!(number, 0);
            }
            Err(refusal) => assert_eq!(number, refusal),
        }
        assert_eq!(kept.record[..], held.record[..]);
        let outputs = random.byte() >> random.below(8);
        let number = agree(sheet, &monitor, &mut held, Call::Together(outputs));
        assert_eq!(kept.together(outputs), if number == 0 { Ok(held.answer[0] as u8) } else { Err(number) });
    }
    let number = agree(sheet, &monitor, &mut held, Call::Close);
    assert_eq!(kept.close().err().unwrap_or(0), number);
    assert_eq!(kept.record[..], held.record[..]);
    assert_eq!(agree(sheet, &monitor, &mut held, Call::Together(1)), kept.together(1).unwrap_err());
}

#[test]
fn random_journals() {
    let mut random = Random::new(902);
    for turn in 0..600 {
        let sheet = random::small(&mut random, if turn % 10 == 0 { 8 } else { 6 });
        play(&mut random, &sheet);
    }
}

/// Any sheet, any storage, any record.
#[test]
fn random_calls() {
    let mut random = Random::new(903);
    for _ in 0..1500 {
        let sheet = if random.one_in(6) { random::damaged(&mut random) } else { random::small(&mut random, 6) };
        let monitor = Monitor::new(&sheet);
        let (inputs, outputs) = monitor.as_ref().map_or((1, 1), |found| (found.sheet.inputs, found.sheet.outputs()));
        let mut held = Held { storage: vec![0; STORAGE_WORDS + random.below(3)], ..Held::fresh() };
        random.fill(&mut held.storage);
        for _ in 0..4 {
            let rounds = random.pick(&[0, 1, 7, MAX_ROUNDS - 1, MAX_ROUNDS, MAX_ROUNDS + 1]);
            let closed = random.pick(&[0, 0, 0, 0, 0, 1, 2]);
            let four = [rounds / 2, 0, rounds - rounds / 2, random.one_in(12) as u32];
            held.forge(rounds, closed, &vec![four; outputs]);
            let letters = if random.one_in(6) { random.any_set(inputs) } else { random.round(inputs, 40) };
            let asked = Call::Together(random.byte() >> random.below(8));
            let made = random.pick(&[Call::Prepare, Call::Close, asked, Call::Round(letters), Call::Round(letters)]);
            agree(&sheet, &monitor, &mut held, made);
        }
    }
}

/// Any masks of any number of inputs; a refusal leaves the set.
#[test]
fn sets_from_masks() {
    for inputs in (0..=9).chain([64, 255]) {
        for masks in 0..=u16::MAX {
            let [known, value] = masks.to_le_bytes();
            let mut made = 5;
            let number = entries::letters(inputs, known, value, &mut made);
            let found = if number == 0 { Ok(LetterSet(made)) } else { Err(number) };
            assert_eq!(found, Heard { known, value }.letters(inputs as usize), "{inputs} inputs, {known}, {value}");
            assert!(number == 0 || made == 5);
        }
    }
}

#[test]
fn sets_in_all_lanes() {
    let mut random = Random::new(908);
    for turn in 0..600 {
        let inputs = 1 + turn % 6;
        let letters = random.round(inputs, 50);
        let lanes = LetterSet(repeated(inputs, letters.0));
        assert!((0..64).all(|lane| lanes.has(lane) == letters.has(lane % (1 << inputs))), "{inputs} {letters:?}");
    }
}

/// The outputs of random letters, the same on both sides, and two bytes behind them that stay as they
/// were.
fn evaluate(random: &mut Random, sheet: &[u8], rounds: usize) -> Vec<u8> {
    let letters = random.letters(sheet[5] as usize, rounds);
    let mut out = random.bytes(rounds + 2);
    let rest = out[rounds..].to_vec();
    assert_eq!(trace::evaluate(sheet, &letters, &mut out), 0);
    let expected = [language::evaluate(sheet, &letters, rounds).unwrap(), rest].concat();
    assert_eq!(out, expected, "{}", hex(sheet));
    out
}

#[test]
fn traces() {
    let mut random = Random::new(904);
    for turn in 0..3000 {
        let sheet = if turn % 4 == 0 { random::zigzag(&mut random) } else { random::accepted(&mut random) };
        let rounds = if turn % 60 == 0 { 4096 } else { random.range(1, 40) };
        evaluate(&mut random, &sheet, rounds);
    }
    for case in cases::evaluation_refusals() {
        let mut out = vec![0x5A; case.room];
        assert_eq!(trace::evaluate(&case.sheet, &case.letters, &mut out), case.number, "{}", case.name);
        assert!(out.iter().all(|&byte| byte == 0x5A));
    }
}

/// Comparisons of comparisons, on rows of one, two and four words.
#[test]
fn comparisons() {
    let mut random = Random::new(905);
    for streams in 2..=8usize {
        let (inputs, outputs) = (streams.div_ceil(2), streams / 2);
        let expression = |output: usize| {
            let read = |place: usize, offset| byte_of_read((output + place) % inputs, offset, output % 2 == 1);
            let own = byte_of_read(inputs + output, -1, true);
            vec![read(0, -1), read(1, 0), 0x05, read(2, 1), own, 0x05, 0x05]
        };
        let expressions: Vec<Vec<u8>> = (0..outputs).map(expression).collect();
        let sheet = write_version(2, inputs as u8, NO_ASSUMPTION, &expressions);
        (0..4).for_each(|_| play(&mut random, &sheet));
        evaluate(&mut random, &sheet, 100);
    }
}

/// The sheet of comparisons has the live pairs, verdicts and traces of what it is timed against.
#[test]
fn comparisons_written_out() {
    let sheets = [workloads::comparisons(), workloads::comparisons_written_out()];
    assert_eq!(sheets.each_ref().map(|sheet| sheet[3]), [2, 1]);
    let monitors = sheets.each_ref().map(|sheet| Monitor::new(sheet));
    let mut random = Random::new(906);
    for unknown in [0, 30, 100] {
        let mut calls = vec![Call::Prepare];
        calls.extend((0..20).map(|_| Call::Round(random.round(4, unknown))));
        calls.push(Call::Close);
        let mut held = [Held::fresh(), Held::fresh()];
        for made in calls {
            for (i, held) in held.iter_mut().enumerate() {
                assert_eq!(agree(&sheets[i], &monitors[i], held, made), 0);
            }
            assert!(held[0] == held[1], "{made:?}");
        }
    }
    let [compared, written_out] = sheets.map(|sheet| evaluate(&mut Random::new(907), &sheet, 4096));
    assert_eq!(compared, written_out);
}

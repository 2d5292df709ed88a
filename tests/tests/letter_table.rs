//! The table of letter sets: as it stands in the source, as the program `letter_sets` prints it, and as the
//! program `journal` finds the set of a line by it. A program that has not been built is passed over.

use outside::cases::{only, plain};
use outside::expect_same;
use outside::letter_table::{entries, entry, indexes, marks, text, ENTRIES};
use outside::letters::LetterSet;
use outside::program::{Ended, Folder};
use outside::random::Random;
use std::fs;
use std::io::{self, Seek};
use std::path::{Path, PathBuf};

/// The files in a folder and in the folders in it.
fn files(folder: &Path) -> Vec<PathBuf> {
    let entries = fs::read_dir(folder).unwrap_or_else(|error| panic!("{}: {error}", folder.display()));
    let paths = entries.map(|entry| entry.expect("a file").path());
    paths.flat_map(|path| if path.is_dir() { files(&path) } else { vec![path] }).collect()
}

/// A source without its comments and blanks.
fn code(path: &Path) -> String {
    let source = fs::read_to_string(path).unwrap_or_else(|error| panic!("{}: {error}", path.display()));
    let lines = source.lines().filter_map(|line| line.split("//").next());
    lines.flat_map(str::split_whitespace).collect()
}

/// A number as a source has it, in hex or decimal.
fn number(literal: &str) -> u64 {
    let digits = literal.replace('_', "");
    let found = match digits.strip_prefix("0x") {
        Some(hex) => u64::from_str_radix(hex, 16),
        None => digits.parse(),
    };
    found.unwrap_or_else(|error| panic!("{literal:?}: {error}"))
}

/// The array is there once, and its numbers are the entries.
#[test]
fn the_source() {
    let folder = Path::new(env!("CARGO_MANIFEST_DIR")).join("../crates/letter_table/src");
    let source = code(&folder.join("table.rt"));
    let (_, array) = source.split_once("constSETS:[u64;729]=[").expect("the array");
    let (array, _) = array.split_once("];").expect("the end of the array");
    let numbers: Vec<u64> = array.trim_end_matches(',').split(',').map(number).collect();
    assert_eq!(numbers.len(), ENTRIES);
    for (index, (found, expected)) in numbers.into_iter().zip(entries()).enumerate() {
        assert_eq!(found, expected, "entry {index}");
    }
    let arrays: usize = files(&folder).iter().map(|file| code(file).matches(";729]=[").count()).sum();
    assert_eq!(arrays, 1, "arrays of 729 numbers");
}

/// The table, and nothing else.
fn expect_printed(ended: Ended) {
    expect_same("the output", ended.output.as_bytes(), text().as_bytes());
    assert_eq!((ended.status.code(), &*ended.errors), (Some(0), ""));
}

/// Nothing is read, so neither the input nor a sheet matters.
#[test]
fn whatever_the_input() {
    let Some(folder) = Folder::of("letter_sets", "whatever_the_input") else { return };
    expect_printed(folder.end(folder.command()));
    expect_printed(folder.end(folder.shell("exec \"$0\" <&-")));
    for bytes in [&b""[..], b"\n", b"??????\n.\n", b"728", &[0xFF; 1_000_000]] {
        let mut input = folder.input(bytes);
        let mut command = folder.command();
        command.stdin(input.try_clone().expect("a file"));
        expect_printed(folder.end(command));
        assert_eq!(input.stream_position().expect("a file"), 0);
    }
    let (input, _open) = io::pipe().expect("a pipe");
    let mut command = folder.command();
    command.stdin(input);
    expect_printed(folder.end(command));
    fs::create_dir(folder.sheet()).expect("a folder");
    expect_printed(folder.end(folder.command()));
}

#[test]
fn whatever_the_words_behind_its_name() {
    let Some(folder) = Folder::of("letter_sets", "whatever_the_words_behind_its_name") else { return };
    for words in [&["5"][..], &["--help"], &["-"], &[""], &["0", "728"], &["sheet.slr", ">", "output"]] {
        let mut command = folder.command();
        command.args(words);
        expect_printed(folder.end(command));
    }
}

/// A line of the journal program, and the set that it stands for.
struct Line {
    text: String,
    set: LetterSet,
}

impl Line {
    /// The alternatives with these indexes.
    fn of(inputs: usize, indexes: &[usize]) -> Line {
        let parts: Vec<String> = indexes.iter().map(|&index| marks(inputs, index)).collect();
        let sets = indexes.iter().map(|&index| LetterSet(entry(index)));
        Line { text: parts.join("|"), set: sets.fold(LetterSet(0), LetterSet::union) }
    }
}

/// An output that looks at its own round alone, and the letters for which it is true.
struct Output {
    expression: String,
    letters: LetterSet,
}

impl Output {
    /// Each input, and for each letter an output that is true for it alone.
    fn all(inputs: usize) -> Vec<Output> {
        let letters = 0..1usize << inputs;
        let with = |input: usize| letters.clone().filter(|letter| letter >> input & 1 == 1).collect();
        let copies = (0..inputs).map(|input| Output { expression: format!("4{input}"), letters: with(input) });
        let single = |letter| Output { expression: only(inputs, letter), letters: LetterSet(1 << letter) };
        copies.chain(letters.clone().map(single)).collect()
    }

    /// False if it is true for no letter of the round, true if for all, and else open.
    fn verdict(&self, round: LetterSet) -> char {
        let letters = round.letters();
        match letters.iter().filter(|&&letter| self.letters.has(letter as usize)).count() {
            0 => '0',
            count if count == letters.len() => '1',
            _ => '?',
        }
    }
}

/// The answers to these lines, as many outputs at a time as a sheet has room for.
fn expect_verdicts(folder: &Folder, inputs: usize, lines: &[Line]) {
    let journal: String = lines.iter().map(|line| line.text.clone() + "\n").collect();
    for outputs in Output::all(inputs).chunks((8 - inputs).min(7)) {
        let expressions: Vec<&str> = outputs.iter().map(|output| &*output.expression).collect();
        let written = folder.run(Some(&plain(inputs as u8, &expressions)), journal.as_bytes());
        for (line, answer) in lines.iter().zip(written.lines()) {
            let expected: String = outputs.iter().map(|output| output.verdict(line.set)).collect();
            assert_eq!(answer, expected, "outputs {expressions:?}, line {}", line.text);
        }
        assert_eq!(written.lines().count(), lines.len());
    }
}

#[test]
fn every_alternative() {
    let Some(folder) = Folder::new("every_alternative") else { return };
    for inputs in 1..=6 {
        let lines: Vec<Line> = (0..indexes(inputs)).map(|index| Line::of(inputs, &[index])).collect();
        expect_verdicts(&folder, inputs, &lines);
    }
}

/// Alternatives of so many inputs in any order: a few, hundreds that lack a letter, as else they would have all, or
/// the same three again and again. One of them, anywhere, may be any other.
fn draw(random: &mut Random, inputs: usize) -> Vec<usize> {
    let every: Vec<usize> = (0..indexes(inputs)).collect();
    let few = [0; 3].map(|_| random.pick(&every));
    let letter = random.letter(inputs) as usize;
    let lacking: Vec<usize> = every.iter().copied().filter(|&index| !LetterSet(entry(index)).has(letter)).collect();
    let (from, count) = match random.below(3) {
        0 => (&every[..], random.range(2, 4)),
        1 => (&lacking[..], random.range(100, 800)),
        _ => (&few[..], random.range(2, 800)),
    };
    let mut drawn: Vec<usize> = (0..count).map(|_| random.pick(from)).collect();
    drawn[random.below(count)] = random.pick(&every);
    drawn
}

#[test]
fn unions_of_alternatives() {
    let Some(folder) = Folder::new("unions_of_alternatives") else { return };
    let mut random = Random::new(92);
    for inputs in 1..=6 {
        let lines: Vec<Line> = (0..200).map(|_| Line::of(inputs, &draw(&mut random, inputs))).collect();
        expect_verdicts(&folder, inputs, &lines);
    }
}

/// Alternatives that are none, each with its place in a line of three: too short, too long by as much as a count
/// may forget, or with a byte that is no mark.
fn malformed(random: &mut Random, inputs: usize) -> Vec<(usize, Vec<u8>)> {
    let lengths = [0, inputs - 1, inputs + 1, 2 * inputs, inputs + (1 << 8), inputs + (1 << 16)];
    let mut good = |count: usize| -> Vec<u8> { (0..count).map(|_| random.pick(b"01?")).collect() };
    let mut found: Vec<_> = lengths.into_iter().flat_map(|count| [0, 1, 2].map(|place| (place, good(count)))).collect();
    for byte in (0..=255).filter(|byte| !b"01?\n".contains(byte)) {
        let mut marks = marks(inputs, random.below(indexes(inputs))).into_bytes();
        marks[random.below(inputs)] = byte;
        found.push((random.below(3), marks));
    }
    found
}

/// Lines before them are answered, and none behind them.
#[test]
fn malformed_alternatives() {
    let Some(folder) = Folder::new("malformed_alternatives") else { return };
    let mut random = Random::new(93);
    for inputs in 1..=6 {
        folder.put_sheet(&plain(inputs as u8, &["40"]));
        for (place, part) in malformed(&mut random, inputs) {
            let good = Line::of(inputs, &draw(&mut random, inputs));
            let answer = Output::all(inputs)[0].verdict(good.set);
            let mut parts = [0; 3].map(|_| marks(inputs, random.below(indexes(inputs))).into_bytes());
            parts[place] = part;
            let input = [b"", good.text.as_bytes(), &parts.join(&b'|'), good.text.as_bytes()].join(&b'\n');
            let written = folder.written(folder.input(&input).into());
            assert_eq!(written, format!("?\n{answer}\nrefused 17 line 3\n"), "{}", outside::hex(&parts[place]));
        }
    }
}

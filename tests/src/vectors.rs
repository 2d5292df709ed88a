//! The cases of the program `vectors`, what it reads and what it has to write.
//!
//! Rule 13 needs a million rounds, so no case here meets it.

use crate::cases;
use crate::journal::{call_of_line, Book, Call};
use crate::letters::{spelled_out, LetterSet};
use crate::monitor::Monitor;
use crate::random::{self, Random};
use crate::session::{self, SHEET_READ};
use crate::shares::below_half;
use crate::sheet::NO_ASSUMPTION;

/// The longest session that the program takes.
const LONGEST_SESSION: usize = 65_535;

pub struct Case {
    pub sheet: Vec<u8>,
    pub session: Vec<u8>,
}

impl Case {
    /// Of a longer sheet the journal program reads only so much.
    fn new(mut sheet: Vec<u8>, session: impl Into<Vec<u8>>) -> Case {
        sheet.truncate(SHEET_READ);
        Case { sheet, session: session.into() }
    }

    /// The low byte of the version if it is 1 or 2, and else 0.
    fn low_version(&self) -> usize {
        match self.sheet.get(3) {
            Some(&low @ (1 | 2)) => low as usize,
            _ => 0,
        }
    }

    /// The lengths and what they count, as they stand in the program's input.
    fn to_bytes(&self) -> Vec<u8> {
        assert!(self.sheet.len() <= SHEET_READ && self.session.len() <= LONGEST_SESSION);
        let mut bytes = (self.sheet.len() as u16).to_le_bytes().to_vec();
        bytes.extend(&self.sheet);
        bytes.extend((self.session.len() as u32).to_le_bytes());
        bytes.extend(&self.session);
        bytes
    }
}

/// What the program reads: the cases, and one that is cut short.
pub fn stdin(cases: &[Case]) -> Vec<u8> {
    let mut bytes: Vec<u8> = cases.iter().flat_map(Case::to_bytes).collect();
    let cut = Case::new(cases::session_sheet(), "10\n?1\n.\n").to_bytes();
    bytes.extend(&cut[..cut.len() - 1]);
    bytes
}

/// What the program writes: the text of each case, and a line after it.
pub fn stdout(cases: &[Case]) -> String {
    cases.iter().map(|case| session::run(&case.sheet, &case.session) + "--\n").collect()
}

/// What the cases have, and how often each refusal and each verdict was written.
#[derive(Debug, Default)]
pub struct Seen {
    /// Lines that are not blank, and those of them with a bar.
    pub lines: usize,
    pub bars: usize,
    /// Blank lines that are answered, and those after a closing.
    pub blank_rounds: usize,
    pub passed_over: usize,
    /// By the low byte of the version, 0 standing for all but 1 and 2.
    pub cases: [usize; 3],
    /// The same, and by number.
    pub refused_sheets: [[usize; 19]; 3],
    /// By number.
    pub refused_lines: [usize; 19],
    /// Those with a bar that are malformed.
    pub malformed_bars: usize,
    /// In the order `0 1 ? !`.
    pub verdicts: [usize; 4],
    pub closing: [usize; 4],
    /// Shares, and those of them that are a half above an even number and above an odd one.
    pub shares: usize,
    pub halves: [usize; 2],
}

impl Seen {
    pub fn of(cases: &[Case], written: &str) -> Seen {
        let mut seen = Seen::default();
        for (case, text) in cases.iter().zip(written.split("--\n")) {
            let read = session::lines(&case.session);
            seen.cases[case.low_version()] += 1;
            seen.lines += read.iter().filter(|line| !line.is_empty()).count();
            seen.bars += read.iter().filter(|line| line.contains(&b'|')).count();
            text.lines().for_each(|line| seen.add(case.low_version(), &read, line));
            seen.add_blanks(&read, text);
        }
        seen
    }

    /// A line written for a case of this version in which these were read.
    fn add(&mut self, version: usize, read: &[&[u8]], line: &str) {
        let place = |number: &str| number.parse::<usize>().expect("a number");
        let words: Vec<&str> = line.split(' ').collect();
        match words[..] {
            ["refused", number, "sheet"] => self.refused_sheets[version][place(number)] += 1,
            ["refused", number, "line", line] => {
                self.refused_lines[place(number)] += 1;
                self.malformed_bars += (number == "17" && read[place(line) - 1].contains(&b'|')) as usize;
            }
            ["#", _, some_true, some_false, open, broken, _] => {
                let counts = [some_true, some_false, open, broken].map(|count| place(count) as u32);
                let below = below_half(counts[0], counts.iter().sum());
                self.shares += 1;
                below.into_iter().for_each(|below| self.halves[below as usize % 2] += 1);
            }
            _ => match line.strip_prefix('=') {
                Some(verdicts) => count(&mut self.closing, verdicts),
                None => count(&mut self.verdicts, line),
            },
        }
    }

    /// The blank ones of the lines read that this was written for.
    fn add_blanks(&mut self, read: &[&[u8]], text: &str) {
        let refused = text.lines().find(|line| line.starts_with("refused"));
        let taken = match refused.and_then(|line| line.split_once(" line ")) {
            Some((_, number)) => number.parse::<usize>().expect("a number") - 1,
            None if refused.is_some() => 0,
            None => read.len(),
        };
        let blank = |lines: &[&[u8]]| lines.iter().filter(|line| line.is_empty()).count();
        let closing = read[..taken].iter().position(|&line| line == b".").unwrap_or(taken);
        self.blank_rounds += blank(&read[..closing]);
        self.passed_over += blank(&read[closing..taken]);
    }

    /// Each verdict occurs often, and each refusal that a short session can meet several times, those of
    /// a sheet in both versions. About one line in four has several alternatives, and about one round in six is
    /// a blank line. Halves of both kinds occur.
    pub fn expect_all(&self) {
        let rounds = self.lines + self.blank_rounds;
        assert!((12..=20).contains(&(100 * self.blank_rounds / rounds)) && self.passed_over >= 200, "{self:?}");
        assert!((20..=30).contains(&(100 * self.bars / self.lines)), "{self:?}");
        assert!(self.malformed_bars >= 100, "{self:?}");
        assert!(self.cases[1..].iter().all(|&times| times >= 600), "{self:?}");
        assert!(self.verdicts.iter().all(|&times| times >= 5000), "{self:?}");
        assert!(self.closing.iter().all(|&times| times >= 200), "{self:?}");
        assert!(self.halves.iter().all(|&times| times >= 20), "{self:?}");
        let mut refused_sheets = self.refused_sheets[1..].iter().flat_map(|numbers| &numbers[1..=10]);
        assert!(refused_sheets.all(|&times| times >= 6), "{self:?}");
        assert!([12, 14, 17].iter().all(|&number| self.refused_lines[number] >= 12), "{self:?}");
    }
}

fn count(times: &mut [usize; 4], verdicts: &str) {
    for mark in verdicts.chars() {
        times["01?!".find(mark).expect("a verdict")] += 1;
    }
}

/// All cases, the same ones in every run.
pub fn cases() -> Vec<Case> {
    let mut cases = by_hand();
    let mut random = Random::new(61);
    for _ in 0..600 {
        cases.push(journal(&mut random, 40, |(inputs, outputs)| inputs + outputs <= 5));
    }
    for _ in 0..300 {
        cases.push(journal(&mut random, 25, |(inputs, outputs)| inputs + outputs <= 7));
    }
    for inputs in 1..=6 {
        for outputs in 1..=(8 - inputs).min(7) {
            cases.extend((0..8).map(|_| journal(&mut random, 12, |size| size == (inputs, outputs))));
        }
    }
    cases.extend((0..170).map(|_| Case::new(random::damaged(&mut random), "1\n?\n.\n")));
    cases.extend((0..40).map(|_| Case::new(random::two_rings(&mut random), "1\n?\n.\n")));
    cases.extend((0..6).map(|_| long_journal(&mut random)));
    cases
}

/// The whole session, the journals and sheets worked out by hand, and lines that are easily misread.
fn by_hand() -> Vec<Case> {
    let mut found = vec![Case::new(cases::session_sheet(), "10\n?1\n1?\n00\n01\n.\n")];
    for case in cases::journals() {
        let lines: Vec<&str> = case.calls.iter().map(|(line, _)| *line).collect();
        found.push(Case::new(case.sheet, lines.join("\n")));
    }
    for case in cases::sheets() {
        let inputs = case.sheet.get(5).map_or(1, |&inputs| inputs as usize);
        let unknown = "?".repeat(inputs.min(6));
        found.push(Case::new(case.sheet, format!("{unknown}\n{unknown}\n.\n")));
    }
    // Random sheets of version 2 are hardly ever cut so short.
    found.extend((4..8).map(|length| Case::new(cases::shop_sheet()[..length].to_vec(), "??\n")));
    found.push(Case::new(cases::counter(), "0\n1\n?\n.\n"));
    found.push(Case::new(cases::register(), "010101\n??????\n.\n"));
    let starts = ["", "\n", "1\n", "\n0\n\n", "1\n.\n", "?\n0\n.\n\n"];
    let ends = [
        "", "1", "?\n", ".", ".\n", "..", "x\n", "1x", "1\r\n", "\r", "10", " ", ".\r\n", "\0", "1.", ".1\n", "2",
        "0|1\n", "1|", "|\n",
    ];
    for start in starts {
        found.extend(ends.map(|end| Case::new(cases::plain(1, &["40"]), format!("{start}{end}"))));
    }
    for (place, line) in cases::malformed_alternatives().into_iter().enumerate() {
        let (start, end) = (["", "00|11\n"][place % 2], ["", "\n", "\n00\n"][place % 3]);
        found.push(Case::new(cases::labels(), format!("{start}{line}{end}")));
    }
    found.push(Case::new(cases::register(), format!("{}\n??????\n.\n", spelled_out(6))));
    found.extend(cases::blank_lines().into_iter().map(|case| Case::new(case.sheet, case.input)));
    // Line feeds alone, with as many answers as there can be for each.
    found.extend([1, 7, 64, 1000].map(|lines| Case::new(cases::plain(1, &["40"; 7]), "\n".repeat(lines))));
    found.push(Case::new(cases::register(), format!("{}.{}", "\n".repeat(500), "\n".repeat(500))));
    let lengths = [(16, 4), (80, 4), (400, 133)];
    found.extend(lengths.into_iter().flat_map(|(rounds, step)| halves(rounds, step)));
    found
}

/// Journals of so many rounds, of which so many are true, from 0 on in these steps; for the next outputs one, two
/// and three more are. Of 16, 80 or 400 rounds every odd number is a half.
fn halves(rounds: usize, step: usize) -> impl Iterator<Item = Case> {
    let line = |round: usize, count: usize| {
        let marks = [0, 1, 2, 3].map(|more| if round < count + more { '1' } else { '0' });
        String::from_iter(marks) + "\n"
    };
    let lines = move |count: usize| (0..rounds).map(|round| line(round, count)).collect::<String>();
    let counts = (0..=rounds).step_by(step);
    counts.map(move |count| Case::new(cases::plain(4, &["40", "41", "42", "43"]), lines(count) + "."))
}

/// An accepted sheet of one of these sizes, inputs and outputs, with its monitor. Sheets without an
/// assumption are passed over now and then, and those that are broken from the start most often.
fn subject(random: &mut Random, fits: impl Fn((u8, u8)) -> bool) -> (Vec<u8>, Monitor) {
    loop {
        let sheet = random::accepted(random);
        if !fits((sheet[5], sheet[6])) || (sheet[7] == NO_ASSUMPTION && random.one_in(2)) {
            continue;
        }
        let monitor = Monitor::new(&sheet).expect("made to be accepted");
        if !Book::new(&monitor).letters_ahead().is_empty() || random.one_in(10) {
            return (sheet, monitor);
        }
    }
}

/// A journal with so many rounds at most, closed or not, with blank lines or without, and sometimes
/// with a line that is malformed. A blank line is one of the rounds, or stands anywhere.
fn journal(random: &mut Random, rounds: usize, fits: impl Fn((u8, u8)) -> bool) -> Case {
    let (sheet, monitor) = subject(random, fits);
    let (rounds, along) = (random.range(1, rounds), random.pick(&[100, 100, 100, 90, 0]));
    let asleep = random.pick(&[0, 0, 10, 40]);
    let mut lines = rounds_of(random, &monitor, rounds, along, asleep);
    match random.below(4) {
        0 => {}
        1 => lines.insert(random.range(0, rounds), b".".to_vec()),
        _ => lines.push(b".".to_vec()),
    }
    if random.one_in(3) {
        for _ in 0..random.range(1, 5) {
            lines.insert(random.below(lines.len() + 1), Vec::new());
        }
    }
    if random.one_in(5) {
        let place = random.below(lines.len());
        damage(random, &mut lines[place]);
    }
    let mut session = lines.join(&b'\n');
    if !random.one_in(3) {
        session.push(b'\n');
    }
    Case::new(sheet, session)
}

/// A journal of thousands of rounds.
fn long_journal(random: &mut Random) -> Case {
    let (sheet, monitor) = subject(random, |(inputs, outputs)| inputs + outputs <= 4);
    let rounds = random.range(1000, 4000);
    let mut lines = rounds_of(random, &monitor, rounds, 100, 10);
    lines.push(b".".to_vec());
    Case::new(sheet, lines.join(&b'\n'))
}

/// Rounds as lines. So many of a hundred follow a completion of the rounds before, as long as there
/// is one, and so many were slept through.
fn rounds_of(random: &mut Random, monitor: &Monitor, rounds: usize, along: usize, asleep: usize) -> Vec<Vec<u8>> {
    let mut book = Book::new(monitor);
    let unknown = random.pick(&[0, 20, 50, 80, 100]);
    let mut lines = Vec::new();
    for _ in 0..rounds {
        if random.below(100) < asleep {
            book.round(LetterSet::all(monitor.sheet.inputs)).expect("a round");
            lines.push(Vec::new());
            continue;
        }
        let letter =
            if random.below(100) < along { random.letter_along(&book) } else { random.letter(monitor.sheet.inputs) };
        let line = round_of(random, monitor.sheet.inputs, letter, unknown);
        let Call::Round(letters) = call_of_line(&line) else { unreachable!("a round") };
        book.round(letters).expect("a set of letters in range");
        lines.push(line.into_bytes());
    }
    lines
}

/// A round with this letter. One in four has several alternatives.
fn round_of(random: &mut Random, inputs: usize, letter: u8, unknown: usize) -> String {
    if random.one_in(4) {
        let letters = random.round_of(letter, inputs, unknown);
        return random.alternatives(inputs, letters);
    }
    random.heard_of(letter, inputs, unknown).marks(inputs)
}

/// One byte more, less or other, most of which make a line malformed.
fn damage(random: &mut Random, line: &mut Vec<u8>) {
    let byte = random.pick(b"||||01?.x! \r\t\0=#2/\xFF\x80");
    let place = random.below(line.len() + 1);
    match random.below(4) {
        0 => line.insert(place, byte),
        1 => line.push(byte),
        2 if place < line.len() => line[place] = byte,
        _ => {
            line.pop();
        }
    }
}

//! The journal program's lines: a sheet and the bytes of standard input to the bytes it prints.

use crate::fast::entries::Journal;
use crate::fast::Sheet;
use std::io::{self, BufRead, Write};

/// The most bytes of the sheet's file that count: one more than the longest sheet has.
pub const SHEET_BYTES: usize = 464;

const MARKS: &[u8; 4] = b"01?!";

/// Answers all lines, up to the first refusal. What was read is answered before more is read.
pub fn run(sheet: &[u8], mut input: impl BufRead, mut output: impl Write) -> io::Result<()> {
    let mut journal = match Sheet::accept(sheet) {
        Ok(sheet) => Journal::prepare(sheet),
        Err(number) => {
            writeln!(output, "refused {number} sheet")?;
            return output.flush();
        }
    };
    let mut lines = Lines { begun: Vec::new(), number: 0 };
    loop {
        // An error ends the input as its end does.
        let chunk = input.fill_buf().unwrap_or(&[]);
        let length = chunk.len();
        let stopped = if length == 0 {
            lines.finish(&mut journal, &mut output)
        } else {
            lines.feed(&mut journal, chunk, &mut output)
        };
        match stopped {
            Ok(()) => {}
            Err(Stop::Refused(rule)) => writeln!(output, "refused {rule} line {}", lines.number)?,
            Err(Stop::Failed(error)) => return Err(error),
        }
        output.flush()?;
        if length == 0 || stopped.is_err() {
            return Ok(());
        }
        input.consume(length);
    }
}

/// Where the input stands.
struct Lines {
    /// What was read of a line that has not ended yet.
    begun: Vec<u8>,
    /// The number of the last line answered.
    number: u64,
}

impl Lines {
    fn feed(&mut self, journal: &mut Journal, chunk: &[u8], output: &mut impl Write) -> Result<(), Stop> {
        for piece in chunk.split_inclusive(|&byte| byte == b'\n') {
            let Some(text) = piece.strip_suffix(b"\n") else {
                self.begun.extend(piece);
                break;
            };
            self.number += 1;
            if self.begun.is_empty() {
                answer(journal, text, output)?;
            } else {
                self.begun.extend(text);
                answer(journal, &self.begun, output)?;
                self.begun.clear();
            }
        }
        Ok(())
    }

    /// The last line may lack its line feed; the empty end after one is no line.
    fn finish(&mut self, journal: &mut Journal, output: &mut impl Write) -> Result<(), Stop> {
        if self.begun.is_empty() {
            return Ok(());
        }
        self.number += 1;
        answer(journal, &self.begun, output)
    }
}

enum Stop {
    Refused(u32),
    Failed(io::Error),
}

impl From<u32> for Stop {
    fn from(rule: u32) -> Stop {
        Stop::Refused(rule)
    }
}

impl From<io::Error> for Stop {
    fn from(error: io::Error) -> Stop {
        Stop::Failed(error)
    }
}

fn answer(journal: &mut Journal, line: &[u8], output: &mut impl Write) -> Result<(), Stop> {
    // After closing a blank line is passed over, and this comes before a malformed line.
    if journal.record[1] == 1 {
        return if line.is_empty() { Ok(()) } else { Err(Stop::Refused(12)) };
    }
    let outputs = journal.sheet.outputs;
    let print = |output: &mut dyn Write, head: &[u8], verdicts: &[u8; 7]| {
        let mut text = [b'\n'; 9];
        text[..head.len()].copy_from_slice(head);
        (0..outputs).for_each(|k| text[head.len() + k] = MARKS[verdicts[k] as usize]);
        output.write_all(&text[..head.len() + outputs + 1])
    };
    if line == b"." {
        let (verdicts, shares) = journal.close()?;
        print(output, b"=", &verdicts)?;
        for (k, share) in shares.iter().enumerate().take(outputs) {
            let counts = &journal.record[2 + 4 * k..6 + 4 * k];
            writeln!(output, "# {k} {} {} {} {} {share}", counts[0], counts[1], counts[2], counts[3])?;
        }
        return Ok(());
    }
    // Of a blank line's round nothing was heard.
    let letters = match line {
        [] => u64::MAX >> (64 - (1 << journal.sheet.inputs)),
        _ => line_set(journal.sheet.inputs, line).ok_or(17u32)?,
    };
    let verdicts = journal.round(letters)?;
    print(output, b"", &verdicts)?;
    Ok(())
}

/// The set of a line: the union of its alternatives, which are joined by bars.
fn line_set(inputs: usize, line: &[u8]) -> Option<u64> {
    let (mut set, mut rest) = (0, line);
    loop {
        let (marks, after) = rest.split_at_checked(inputs)?;
        set |= alternative_set(marks)?;
        match after {
            [] => return Some(set),
            [b'|', others @ ..] => rest = others,
            _ => return None,
        }
    }
}

/// The letters that fit marks `0`, `1` and `?`, looked up by the marks' digits in base 3, input 0's the
/// lowest. Marks can't be foretold, so there is no branch on them.
fn alternative_set(marks: &[u8]) -> Option<u64> {
    let (mut index, mut good) = (0, true);
    for &mark in marks.iter().rev() {
        let digit = usize::from(mark == b'1') + 2 * usize::from(mark == b'?');
        good &= matches!(mark, b'0' | b'1' | b'?');
        index = 3 * index + digit;
    }
    good.then(|| LETTER_SETS[index])
}

/// The letters that match six digits in base 3: 0 and 1 are an input's value, 2 is either.
static LETTER_SETS: [u64; 729] = letter_sets();

const fn letter_sets() -> [u64; 729] {
    let (mut sets, mut size, mut input) = ([1; 729], 1, 0);
    while input < 6 {
        let mut index = 0;
        while index < size {
            sets[size + index] = sets[index] << (1 << input);
            sets[2 * size + index] = sets[index] | sets[size + index];
            index += 1;
        }
        size *= 3;
        input += 1;
    }
    sets
}

#[cfg(test)]
mod tests {
    use super::*;
    use outside::journal::{call_of_line, Call};
    use outside::letters::LetterSet;
    use outside::monitor::Monitor;
    use outside::random::{self, Random};
    use outside::{cases, hex, session};
    use std::io::BufReader;

    fn printed(sheet: &[u8], input: &str) -> String {
        printed_by_chunks(sheet, input.as_bytes(), input.len().max(1))
    }

    /// What is printed if so many bytes are read at once.
    fn printed_by_chunks(sheet: &[u8], input: &[u8], length: usize) -> String {
        let mut output = Vec::new();
        run(sheet, BufReader::with_capacity(length, input), &mut output).unwrap();
        String::from_utf8(output).unwrap()
    }

    #[test]
    fn whole_session() {
        let expected = "?1\n11\n?1\n11\n!!\n=!!\n# 0 2 0 2 1 400\n# 1 4 0 0 1 800\n";
        assert_eq!(printed(&cases::session_sheet(), "10\n?1\n1?\n00\n01\n.\n"), expected);
        assert_eq!(printed(&cases::session_sheet(), "10\n?1\n1?\n00\n01\n."), expected);
    }

    #[test]
    fn lines() {
        let one = || cases::plain(1, &["40"]);
        let cases = [
            ("", ""),
            ("\n", "?\n"),
            ("\n\n1\n\n0", "?\n?\n1\n?\n0\n"),
            ("1x\n", "refused 17 line 1\n"),
            ("1\nx", "1\nrefused 17 line 2\n"),
            ("1\r\n", "refused 17 line 1\n"),
            ("..\n", "refused 17 line 1\n"),
            ("\n11\n1\n", "?\nrefused 17 line 2\n"),
            (".\n", "refused 14 line 1\n"),
            ("1\n.\n\n", "1\n=1\n# 0 1 0 0 0 1000\n"),
            ("?\n.\n\nx\n", "?\n=?\n# 0 0 0 1 0 0\nrefused 12 line 4\n"),
            ("0\n.\n.", "0\n=0\n# 0 0 1 0 0 0\nrefused 12 line 3\n"),
        ];
        for (input, expected) in cases {
            assert_eq!(printed(&one(), input), expected, "{input:?}");
        }
        for case in cases::blank_lines() {
            assert_eq!(printed(&case.sheet, case.input), case.written, "{:?}", case.input);
        }
        assert_eq!(printed(&[], "1\n"), "refused 1 sheet\n");
        assert_eq!(printed(&cases::plain(1, &["41"]), "1\n"), "refused 10 sheet\n");
    }

    /// Where the input is cut does not matter.
    #[test]
    fn chunks() {
        let input = "10\n?1|00\n\n1?\n00|11|00\n01\n.\n\n.";
        for length in 1..input.len() {
            let found = printed_by_chunks(&cases::session_sheet(), input.as_bytes(), length);
            assert_eq!(found, printed(&cases::session_sheet(), input));
        }
    }

    #[test]
    fn alternatives() {
        let mut random = Random::new(931);
        for turn in 0..3000 {
            let inputs = 1 + turn % 6;
            let unknown = random.pick(&[0, 30, 100]);
            let letters = random.round(inputs, unknown);
            let line = random.alternatives(inputs, letters);
            assert_eq!(line_set(inputs, line.as_bytes()).map(LetterSet), Some(letters), "{line}");
        }
        for line in ["00|11", "11|00", "00|00|00", "?0|1?", "??|01", "0?"] {
            assert_eq!(line_set(2, line.as_bytes()).map(|set| Call::Round(LetterSet(set))), Some(call_of_line(line)));
        }
    }

    #[test]
    fn malformed() {
        let lines = [
            "|", "||", "|00", "00|", "00||11", "|00|11", "00|11|", "0|11", "00|1", "00|111", "001|11", "0|0", "00|.",
            ".|00", ".|.", "00 |11", "00| 11", " 00|11", "00|11 ", "00|11\r", "00\r|11", "00|1x", "0x|11", "00\0|11",
            "00/11", "00|11.",
        ];
        for line in lines {
            for end in ["", "\n", "\n11\n"] {
                let input = format!("{line}{end}");
                assert_eq!(printed(&cases::session_sheet(), &input), "refused 17 line 1\n", "{input:?}");
            }
        }
    }

    /// A line; about one in six is altered in one place.
    fn random_line(random: &mut Random, inputs: usize) -> Vec<u8> {
        let unknown = random.pick(&[0, 30, 100]);
        let letters = random.round(inputs, unknown);
        let mut line = match random.below(12) {
            0 => vec![],
            1 => b".".to_vec(),
            2..6 => random.heard(inputs, unknown).marks(inputs).into_bytes(),
            _ => random.alternatives(inputs, letters).into_bytes(),
        };
        if random.one_in(6) {
            let place = random.below(line.len() + 1);
            let end = random.range(place, line.len().min(place + 1));
            let byte = random.pick(b"01?|. \rx");
            line.splice(place..end, random.one_in(2).then_some(byte));
        }
        line
    }

    /// The same text as the outside tests' program, with chunks of any length.
    #[test]
    fn random_sessions() {
        let mut random = Random::new(932);
        for turn in 0..1000 {
            let sheet = random::small(&mut random, if turn % 20 == 0 { 8 } else { 6 });
            let monitor = Monitor::new(&sheet).unwrap();
            let lines: Vec<Vec<u8>> =
                (0..random.range(1, 12)).map(|_| random_line(&mut random, monitor.sheet.inputs)).collect();
            let mut input = lines.join(&b'\n');
            input.extend(random.one_in(2).then_some(b'\n'));
            let length = random.range(1, 40);
            assert_eq!(printed_by_chunks(&sheet, &input, length), session::keep(&monitor, &input), "{}", hex(&input));
        }
    }

    #[test]
    fn the_last_round() {
        let most = "?\n".repeat(1_000_000);
        let at_the_end = |line: &str| {
            let text = printed(&cases::plain(1, &["40"]), &format!("{most}{line}\n"));
            text.lines().last().unwrap().to_string()
        };
        assert_eq!(at_the_end("?"), "refused 13 line 1000001");
        assert_eq!(at_the_end(""), "refused 13 line 1000001");
        assert_eq!(at_the_end("x"), "refused 17 line 1000001");
        assert_eq!(at_the_end("."), "# 0 0 0 1000000 0 0");
    }
}

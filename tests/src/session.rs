//! The journal program as a function over the book: a sheet's file and all of standard input to
//! what is written.

use crate::journal::{call_of_line, print, Answer, Book, Call};
use crate::letters::LetterSet;
use crate::monitor::Monitor;

/// How much of the sheet's file is read. The longest sheet is one byte shorter.
pub const SHEET_READ: usize = 464;

/// What the program writes. A missing file is an empty one.
pub fn run(sheet: &[u8], input: &[u8]) -> String {
    match Monitor::new(&sheet[..sheet.len().min(SHEET_READ)]) {
        Err(number) => format!("refused {number} sheet\n"),
        Ok(monitor) => keep(&monitor, input),
    }
}

/// What the program writes once its sheet is accepted.
pub fn keep(monitor: &Monitor, input: &[u8]) -> String {
    answers(monitor, input).concat()
}

/// The same line by line, with none for the lines after a refused one.
pub fn answers(monitor: &Monitor, input: &[u8]) -> Vec<String> {
    let mut book = Book::new(monitor);
    let mut written = Vec::new();
    for (place, line) in lines(input).into_iter().enumerate() {
        match answer(&mut book, line) {
            Ok(text) => written.push(text),
            Err(number) => {
                written.push(format!("refused {number} line {}\n", place + 1));
                break;
            }
        }
    }
    written
}

/// The lines of the input, blank ones too. What follows the last line feed is a line unless it is
/// empty.
pub fn lines(input: &[u8]) -> Vec<&[u8]> {
    let mut lines: Vec<&[u8]> = input.split(|&byte| byte == b'\n').collect();
    if lines.last().is_some_and(|line| line.is_empty()) {
        lines.pop();
    }
    lines
}

/// The call that a line makes, if it is not malformed: `.`, alternatives of as many marks as there are
/// inputs, joined by bars, or nothing at all, which is a round with every signal unknown.
fn call(inputs: usize, line: &[u8]) -> Option<Call> {
    if line.is_empty() {
        return Some(Call::Round(LetterSet::all(inputs)));
    }
    let whole = |part: &[u8]| part.len() == inputs && part.iter().all(|mark| b"01?".contains(mark));
    let good = line == b"." || line.split(|&byte| byte == b'|').all(whole);
    good.then(|| call_of_line(std::str::from_utf8(line).expect("known marks")))
}

/// What is written for a line, or its refusal. After the closing a blank line is ignored.
fn answer(book: &mut Book, line: &[u8]) -> Result<String, u32> {
    if book.closed {
        return if line.is_empty() { Ok(String::new()) } else { Err(12) };
    }
    match call(book.inputs(), line) {
        None => Err(17),
        Some(Call::Round(letters)) => Ok(print(&book.round(letters)?.verdicts) + "\n"),
        Some(_) => {
            let answer = book.close()?;
            Ok(closing(book, &answer))
        }
    }
}

/// The verdicts at closing, and a line for each output.
fn closing(book: &Book, answer: &Answer) -> String {
    let mut text = format!("={}\n", print(&answer.verdicts));
    for (output, (counts, share)) in book.counts.iter().zip(&answer.shares).enumerate() {
        let [some_true, some_false, open, broken] = counts;
        text += &format!("# {output} {some_true} {some_false} {open} {broken} {share}\n");
    }
    text
}

#[cfg(test)]
mod tests {
    use super::*;
    use crate::cases::{self, assuming, labels, plain, session_sheet, shop_sheet};
    use crate::journal::MAX_ROUNDS;
    use crate::letters::spelled_out;
    use crate::random::{self, Random};

    fn one() -> Vec<u8> {
        plain(1, &["40"])
    }

    #[test]
    fn whole_session() {
        let expected = "?1\n11\n?1\n11\n!!\n=!!\n# 0 2 0 2 1 400\n# 1 4 0 0 1 800\n";
        assert_eq!(run(&session_sheet(), b"10\n?1\n1?\n00\n01\n.\n"), expected);
        assert_eq!(run(&session_sheet(), b"10\n?1\n1?\n00\n01\n."), expected);
        assert_eq!(run(&session_sheet(), b"10\n?1\n1?\n00\n01\n.\n\n\n"), expected);
        let expected = "?1\n?1\n11\n?1\n?1\n?1\n11\n!!\n=!!\n# 0 2 0 5 1 250\n# 1 7 0 0 1 875\n";
        assert_eq!(run(&session_sheet(), b"\n10\n?1\n\n\n1?\n00\n01\n.\n\n\n"), expected);
    }

    #[test]
    fn blank_lines() {
        for case in cases::blank_lines() {
            assert_eq!(run(&case.sheet, case.input.as_bytes()), case.written, "{:?}", case.input);
        }
    }

    /// Before the closing, a line of unknown marks in the place of each blank one.
    #[test]
    fn blank_lines_spelled_out() {
        let mut random = Random::new(732);
        for _ in 0..400 {
            let monitor = Monitor::new(&random::small(&mut random, 6)).unwrap();
            let [blank, spelled_out] = random::with_blank_lines(&mut random, monitor.sheet.inputs, 12);
            assert_eq!(keep(&monitor, &blank), keep(&monitor, &spelled_out));
        }
    }

    #[test]
    fn comparisons() {
        let tallies = "# 0 1 1 1 1 250\n# 1 1 1 1 1 250\n# 2 3 0 0 1 750\n";
        let expected = format!("111\n001\n??1\n!!!\n=!!!\n{tallies}");
        assert_eq!(run(&shop_sheet(), b"?1\n0?\n??\n10\n.\n"), expected);
    }

    #[test]
    fn lines_and_ends() {
        let none: [&[u8]; 0] = [];
        assert_eq!(lines(b""), none);
        assert_eq!(lines(b"\n"), [b""]);
        assert_eq!(lines(b"10\n"), [b"10"]);
        assert_eq!(lines(b"10"), [b"10"]);
        assert_eq!(lines(b"10\n\n"), [&b"10"[..], b""]);
        assert_eq!(lines(b"\n\n1"), [&b""[..], b"", b"1"]);
        assert_eq!(run(&one(), b""), "");
        assert_eq!(run(&one(), b"1"), "1\n");
        assert_eq!(run(&one(), b"1\n"), "1\n");
        assert_eq!(run(&one(), b"1\n?"), "1\n?\n");
        assert_eq!(run(&one(), b"1\n.\n"), "1\n=1\n# 0 1 0 0 0 1000\n");
        assert_eq!(run(&one(), b"1\n."), "1\n=1\n# 0 1 0 0 0 1000\n");
    }

    #[test]
    fn malformed_lines() {
        let wrong = ["x", "1x", "..", ". ", " .", ".1", "1.", "1\r", "\r", "\r\n", "10", "2", " ", "!", "=1", "\0"];
        for line in wrong {
            assert_eq!(run(&one(), line.as_bytes()), "refused 17 line 1\n", "{line:?}");
            assert_eq!(run(&one(), format!("1\n\n{line}\n1\n").as_bytes()), "1\n?\nrefused 17 line 3\n", "{line:?}");
        }
        assert_eq!(run(&one(), &[0xFF]), "refused 17 line 1\n");
        assert_eq!(run(&one(), "é".as_bytes()), "refused 17 line 1\n");
        let six = plain(6, &["40"]);
        assert_eq!(run(&six, b"1?0?1?\n"), "1\n");
        assert_eq!(run(&six, b"1?0?1\n"), "refused 17 line 1\n");
        assert_eq!(run(&six, b"1?0?1?0\n"), "refused 17 line 1\n");
        assert_eq!(run(&six, b"......\n"), "refused 17 line 1\n");
    }

    #[test]
    fn alternatives() {
        assert_eq!(run(&labels(), b"00|11\n01|10\n1?|?1\n0?|01"), "??1\n??0\n???\n0??\n");
        assert_eq!(run(&one(), b"0|1\n1|1\n1|1|0\n.\n"), "?\n1\n?\n=?\n# 0 1 0 2 0 333\n");
        let (every, either) = (spelled_out(6), plain(6, &["40", "40 41 42 43 44 45 04 04 04 04 04"]));
        assert_eq!(run(&either, every.as_bytes()), "??\n");
        assert_eq!(run(&either, &every.as_bytes()[7..]), "?1\n");
        assert_eq!(run(&one(), "1|".repeat(200_000).as_bytes()), "refused 17 line 1\n");
        assert_eq!(run(&one(), ("1|".repeat(200_000) + "1").as_bytes()), "1\n");
    }

    /// Each before and after other lines, with a last line feed and without.
    #[test]
    fn malformed_alternatives() {
        for line in cases::malformed_alternatives() {
            for end in ["", "\n", "\n00\n"] {
                let after = |start: &str| run(&labels(), format!("{start}{line}{end}").as_bytes());
                assert_eq!(after(""), "refused 17 line 1\n", "{line:?}");
                assert_eq!(after("00|11\n\n"), "??1\n???\nrefused 17 line 3\n", "{line:?}");
                let closed = after("11\n.\n");
                assert!(closed.starts_with("111\n=111\n") && closed.ends_with("\nrefused 12 line 3\n"), "{line:?}");
            }
        }
    }

    /// The same sets in other words have the same answers.
    #[test]
    fn equal_sets_written_differently() {
        let mut random = Random::new(731);
        for _ in 0..300 {
            let monitor = Monitor::new(&random::small(&mut random, 6)).unwrap();
            let inputs = monitor.sheet.inputs;
            let sets: Vec<LetterSet> = (0..8).map(|_| random.round(inputs, 40)).collect();
            let mut written = || {
                let lines: Vec<String> = sets.iter().map(|&set| random.alternatives(inputs, set)).collect();
                keep(&monitor, (lines.join("\n") + "\n.").as_bytes())
            };
            assert_eq!(written(), written());
        }
    }

    #[test]
    fn closings() {
        assert_eq!(run(&one(), b"."), "refused 14 line 1\n");
        assert_eq!(run(&one(), b".\n1\n"), "refused 14 line 1\n");
        assert_eq!(run(&one(), b".\n\n1\n"), "refused 14 line 1\n");
        let shut = "0\n=0\n# 0 0 1 0 0 0\n";
        for after in ["1", "1\n", ".", "x", "..", "\r", "10\n1\n"] {
            let refused = format!("{shut}refused 12 line 3\n");
            assert_eq!(run(&one(), format!("0\n.\n{after}").as_bytes()), refused, "{after:?}");
            let refused = format!("{shut}refused 12 line 5\n");
            assert_eq!(run(&one(), format!("0\n.\n\n\n{after}").as_bytes()), refused, "{after:?}");
        }
        assert_eq!(run(&one(), b"0\n.\n\n\n"), shut);
    }

    /// A closing may be broken where the round before was not.
    #[test]
    fn a_closing_that_breaks() {
        let ahead = assuming(1, 1, &["40", "40 60 04"]);
        assert_eq!(run(&ahead, b"0\n.\n"), "01\n=!!\n# 0 0 1 0 0 0\n# 1 1 0 0 0 1000\n");
        assert_eq!(run(&ahead, b"0\n1\n.\n"), "01\n11\n=11\n# 0 1 1 0 0 500\n# 1 2 0 0 0 1000\n");
    }

    #[test]
    fn refused_sheets() {
        for case in cases::sheets() {
            let written = run(&case.sheet, b"x\n");
            let expected =
                if case.number == 0 { "refused 17 line 1\n" } else { &format!("refused {} sheet\n", case.number) };
            assert_eq!(written, expected, "{}", case.name);
        }
        assert_eq!(run(b"", b"1\n.\nx"), "refused 1 sheet\n");
        // Bytes after the first 464 are never looked at.
        let long = [cases::longest(), vec![0; 1000]].concat();
        assert_eq!(run(&long, b"1\n"), "refused 9 sheet\n");
    }

    /// The journals worked out by hand, up to their first refusal.
    #[test]
    fn journals_by_hand() {
        for case in cases::journals() {
            let lines: Vec<&str> = case.calls.iter().map(|(line, _)| *line).collect();
            let written = run(&case.sheet, lines.join("\n").as_bytes());
            let verdicts: Vec<&str> = written.lines().filter(|line| !line.starts_with('#')).collect();
            let mut expected = Vec::new();
            for (place, (line, answer)) in case.calls.iter().enumerate() {
                if ["12", "14"].contains(answer) {
                    expected.push(format!("refused {answer} line {}", place + 1));
                    break;
                }
                expected.push(if *line == "." { format!("={answer}") } else { answer.to_string() });
            }
            assert_eq!(verdicts, expected, "{}", case.name);
        }
    }

    #[test]
    fn the_last_rounds() {
        let monitor = Monitor::new(&one()).unwrap();
        let mut book = Book::new(&monitor);
        for _ in 0..MAX_ROUNDS {
            book.round(LetterSet(0b10)).unwrap();
        }
        for (line, number) in
            [("x", 17), ("?", 13), ("", 13), ("..", 17), ("1", 13), ("10", 17), ("0|1", 13), ("1|", 17)]
        {
            assert_eq!(answer(&mut book, line.as_bytes()), Err(number), "{line}");
        }
        assert_eq!(answer(&mut book, b".").unwrap(), "=1\n# 0 1000000 0 0 0 1000\n");
        assert_eq!(answer(&mut book, b"x"), Err(12));
        assert_eq!(answer(&mut book, b""), Ok(String::new()));
    }
}

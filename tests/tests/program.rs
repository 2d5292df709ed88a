//! The program `journal` itself, where it has been built: its files, and a journal with as many
//! rounds as one may hold.

use outside::cases::{
    blank_lines, labels, longest, longest_comparing, malformed_alternatives, plain, session_sheet, shop_sheet,
};
use outside::journal::MAX_ROUNDS;
use outside::letters::{spelled_out, LetterSet};
use outside::program::Folder;
use outside::random::{self, Random};
use outside::sheet::with_version;
use outside::{session, vectors};
use std::fs;
use std::io::{self, Write};
use std::path::Path;
use std::process::Stdio;
use std::thread;
use std::time::Duration;

#[test]
fn sheets_and_sessions() {
    let Some(folder) = Folder::new("sheets_and_sessions") else { return };
    // Every eighth, as each is a run of its own.
    for case in vectors::cases().iter().step_by(8) {
        let written = folder.run(Some(&case.sheet), &case.session);
        assert_eq!(written, session::run(&case.sheet, &case.session), "sheet {}", outside::hex(&case.sheet));
    }
}

#[test]
fn files() {
    let Some(folder) = Folder::new("files") else { return };
    assert_eq!(folder.run(None, b"1\n.\n"), "refused 1 sheet\n");
    assert_eq!(folder.run(Some(b""), b"1\n.\n"), "refused 1 sheet\n");
    assert_eq!(folder.run(Some(&longest()), b"0"), "1111111\n");
    for more in [1, 2, 100, 70_000] {
        let long = [longest(), vec![0x40; more]].concat();
        assert_eq!(folder.run(Some(&long), b"0"), "refused 9 sheet\n", "{more} bytes more");
    }
    assert_eq!(folder.written(Stdio::null()), "refused 9 sheet\n");
    assert_eq!(folder.run(Some(&session_sheet()), b""), "");
}

/// Sheets of version 2, and the same with another version.
#[test]
fn comparisons() {
    let Some(folder) = Folder::new("comparisons") else { return };
    let lines = b"?1\n0?\n??\n10\n.\n";
    let tallies = "# 0 1 1 1 1 250\n# 1 1 1 1 1 250\n# 2 3 0 0 1 750\n";
    let written = format!("111\n001\n??1\n!!!\n=!!!\n{tallies}");
    assert_eq!(folder.run(Some(&shop_sheet()), lines), written);
    assert_eq!(folder.run(Some(&longest_comparing()), b"?\n?\n1\n"), "1010101\n1111111\n1010101\n");
    for (version, number) in [(1, 7), (0, 3), (3, 3), (0x0102, 3), (0x0200, 3)] {
        for sheet in [shop_sheet(), longest_comparing()] {
            let refused = format!("refused {number} sheet\n");
            assert_eq!(folder.run(Some(&with_version(&sheet, version)), lines), refused, "version {version}");
        }
    }
}

#[test]
fn alternatives() {
    let Some(folder) = Folder::new("alternatives") else { return };
    let written = "??1\n??0\n???\n0??\n111\n=111\n# 0 1 1 3 0 200\n# 1 1 0 4 0 200\n# 2 2 1 2 0 400\n";
    assert_eq!(folder.run(Some(&labels()), b"00|11\n01|10\n1?|?1\n0?|01\n11|11|11\n.\n"), written);
    let (six, every) = (plain(6, &["40", "40 41 42 43 44 45 04 04 04 04 04"]), spelled_out(6));
    assert_eq!(folder.run(Some(&six), format!("{every}\n??????\n{}", &every[7..]).as_bytes()), "??\n??\n?1\n");
}

/// Each before and after closing, with a last line feed and without.
#[test]
fn lines_that_are_malformed() {
    let Some(folder) = Folder::with_sheet("lines_that_are_malformed", &labels()) else { return };
    let closed = "111\n=111\n# 0 1 0 0 0 1000\n# 1 1 0 0 0 1000\n# 2 1 0 0 0 1000\n";
    for line in malformed_alternatives() {
        for end in ["", "\n", "\n00\n"] {
            let after = |start: &str| folder.written(folder.input(format!("{start}{line}{end}").as_bytes()).into());
            assert_eq!(after("00|11\n\n"), "??1\n???\nrefused 17 line 3\n", "{line:?}");
            assert_eq!(after("11\n.\n"), format!("{closed}refused 12 line 3\n"), "{line:?}");
        }
    }
}

/// The same sets in other words.
#[test]
fn equal_sets_written_differently() {
    let Some(folder) = Folder::new("equal_sets_written_differently") else { return };
    let mut random = Random::new(91);
    for _ in 0..60 {
        let sheet = random::small(&mut random, 7);
        folder.put_sheet(&sheet);
        let inputs = sheet[5] as usize;
        let sets: Vec<LetterSet> = (0..30).map(|_| random.round(inputs, 40)).collect();
        let mut written = || {
            let lines: Vec<String> = sets.iter().map(|&set| random.alternatives(inputs, set)).collect();
            folder.written(folder.input((lines.join("\n") + "\n.").as_bytes()).into())
        };
        assert_eq!(written(), written(), "sheet {}", outside::hex(&sheet));
    }
}

/// A line of 300,000 bytes, in which one alternative differs from all others or lacks a mark. The end of a
/// buffer may lie before each of its seven bytes, the bar among them.
#[test]
fn long_lines() {
    let Some(folder) = Folder::with_sheet("long_lines", &plain(6, &["40", "45"])) else { return };
    for end in (10..=18).map(|bits| 1 << bits) {
        for before in 0..7 {
            let mut parts = vec!["011110"; 300_000 / 7];
            let line = |parts: &[&str]| "\n".repeat(before) + &parts.join("|") + "\n011110";
            let mut run = |part| {
                parts[(end - before) / 7] = part;
                folder.written(folder.input(line(&parts).as_bytes()).into())
            };
            let rounds = "??\n".repeat(before);
            assert_eq!(run("011111"), format!("{rounds}0?\n00\n"), "byte {end}, {before} blank lines");
            let refused = format!("{rounds}refused 17 line {}\n", before + 1);
            assert_eq!(run("01111"), refused, "byte {end}, {before} blank lines");
        }
    }
}

#[test]
fn inputs_with_blank_lines() {
    let Some(folder) = Folder::new("inputs_with_blank_lines") else { return };
    for case in blank_lines() {
        let (input, written) = (case.input, case.written);
        assert_eq!(folder.run(Some(&case.sheet), input.as_bytes()), written, "{input:?}");
    }
}

/// Before the closing, a line of unknown marks in the place of each blank one.
#[test]
fn blank_lines_spelled_out() {
    let Some(folder) = Folder::new("blank_lines_spelled_out") else { return };
    let mut random = Random::new(92);
    for _ in 0..100 {
        let sheet = random::small(&mut random, 7);
        let lines = random.range(1, 40);
        let [blank, spelled_out] = random::with_blank_lines(&mut random, sheet[5] as usize, lines);
        let written = folder.run(Some(&sheet), &blank);
        let about = format!("sheet {}, input {}", outside::hex(&sheet), outside::hex(&blank));
        assert_eq!(written, folder.run(Some(&sheet), &spelled_out), "{about}");
        assert_eq!(written, session::run(&sheet, &blank), "{about}");
    }
}

/// Line feeds alone: each byte of the input is answered with eight, over many buffers.
#[test]
fn line_feeds_alone() {
    let Some(folder) = Folder::with_sheet("line_feeds_alone", &plain(1, &["40"; 7])) else { return };
    let run = |input: &str| folder.written(folder.input(input.as_bytes()).into());
    for bits in 10..=18 {
        for lines in (1 << bits) - 2..=(1 << bits) + 2 {
            let feeds = "\n".repeat(lines);
            let rounds = "???????\n".repeat(lines);
            outside::expect_same("line feeds", run(&feeds).as_bytes(), rounds.as_bytes());
            // Another line lies across a buffer's end, or right behind it.
            outside::expect_same("a last line", run(&(feeds + "1")).as_bytes(), (rounds + "1111111\n").as_bytes());
        }
    }
    let tallies: String = (0..7).map(|output| format!("# {output} 0 0 70000 0 0\n")).collect();
    let closed = format!("{}=???????\n{tallies}", "???????\n".repeat(70_000));
    let feeds = "\n".repeat(70_000);
    outside::expect_same("feeds around a closing", run(&format!("{feeds}.\n{feeds}")).as_bytes(), closed.as_bytes());
    let refused = format!("{closed}refused 12 line 140002\n");
    outside::expect_same("a line behind them", run(&format!("{feeds}.\n{feeds}1")).as_bytes(), refused.as_bytes());
}

/// The sheets and journals of examples/.
#[test]
fn examples() {
    let Some(folder) = Folder::new("examples") else { return };
    let examples = Path::new(env!("CARGO_MANIFEST_DIR")).join("../examples");
    let run = |name: &str| {
        let [sheet, journal] =
            ["sheet.slr", "journal.txt"].map(|file| fs::read(examples.join(name).join(file)).unwrap());
        let written = folder.run(Some(&sheet), &journal);
        assert_eq!(written, session::run(&sheet, &journal), "{name}");
        written
    };
    for name in ["session", "in_force", "by_evening"] {
        run(name);
    }
    assert_eq!(run("alike"), "01\n11\n?1\n01\n11\n=11\n# 0 2 2 1 0 400\n# 1 5 0 0 0 1000\n");
    assert_eq!(run("relay"), "?1\n?1\n01\n11\n11\n=11\n# 0 2 1 2 0 400\n# 1 5 0 0 0 1000\n");
    let tallies = "# 0 2 1 1 0 500\n# 1 0 2 2 0 0\n# 2 4 0 0 0 1000\n";
    assert_eq!(run("asleep"), format!("001\n??1\n1?1\n101\n=101\n{tallies}"));
    let tallies = "# 0 1 0 3 0 250\n# 1 1 0 3 0 250\n# 2 4 0 0 0 1000\n";
    assert_eq!(run("together"), format!("??1\n??1\n??1\n111\n=111\n{tallies}"));
}

/// Journals of 16 and of 80 rounds: an odd number of true ones is a half.
#[test]
fn halves_at_closing() {
    let Some(folder) = Folder::with_sheet("halves_at_closing", &plain(1, &["40"])) else { return };
    let run = |count: usize, rounds: usize| {
        let input = "1\n".repeat(count) + &"0\n".repeat(rounds - count);
        let written = folder.written(folder.input(format!("{input}.\n").as_bytes()).into());
        let closing = written.strip_prefix(&input).unwrap_or_else(|| panic!("{count} of {rounds}: {written:?}"));
        closing.to_string()
    };
    let last = |mark: &str, count: usize, rounds: usize, share: u32| {
        format!("={mark}\n# 0 {count} {} 0 0 {share}\n", rounds - count)
    };
    let sixteenths = [0, 62, 125, 188, 250, 312, 375, 438, 500, 562, 625, 688, 750, 812, 875, 938];
    for (count, share) in sixteenths.into_iter().enumerate() {
        assert_eq!(run(count, 16), last("0", count, 16, share));
    }
    assert_eq!(run(16, 16), last("1", 16, 16, 1000));
    for (count, share) in [(1, 12), (3, 38), (5, 62), (37, 462), (39, 488), (41, 512), (77, 962), (79, 988)] {
        assert_eq!(run(count, 80), last("0", count, 80, share));
    }
}

/// As many rounds as a journal may hold, ten of them blank lines, and what is written. Each other line is
/// answered with itself where the only output is the only input.
fn a_full_journal() -> (String, String) {
    let (mut input, mut written) = (String::new(), String::new());
    for round in 1..=MAX_ROUNDS {
        let (line, answer) = match round {
            MAX_ROUNDS => ("?\n", "?\n"),
            _ if round % 100_000 == 50_000 => ("\n", "?\n"),
            _ if round % 2000 == 0 => ("0\n", "0\n"),
            _ => ("1\n", "1\n"),
        };
        input += line;
        written += answer;
    }
    (input, written)
}

/// Rules 13 and 17 after the last round, and closing.
#[test]
fn a_million_rounds() {
    let Some(folder) = Folder::with_sheet("a_million_rounds", &plain(1, &["40"])) else { return };
    let (input, written) = a_full_journal();
    // 999,500 of 1,000,000 is 999 and a half per thousand, of which 1000 is the even neighbour.
    let closing = "=?\n# 0 999500 489 11 0 1000\n";
    let refused = |number: u32, line: u32| format!("refused {number} line {line}\n");
    let full = ["?\n", "0", "0|1\n", "1|1", "\n", "\n\n1\n.\n"].map(|end| (end.to_string(), refused(13, 1_000_001)));
    let malformed = ["x", "??", "..", "|", "0|", "|0", "0||1", ".|0", "0|.", "0|11", "01|1", "0| 1", "0|1\r", "\r"];
    let malformed = malformed.into_iter().flat_map(|line| [line.to_string(), format!("{line}\n?\n")]);
    let malformed = malformed.map(|end| (end, refused(17, 1_000_001)));
    let others = [
        ("", "".to_string()),
        (".\n\n", closing.to_string()),
        (".\n?\n", format!("{closing}{}", refused(12, 1_000_002))),
        (".\nx", format!("{closing}{}", refused(12, 1_000_002))),
        (".\n0|", format!("{closing}{}", refused(12, 1_000_002))),
        (".\n\n\n.\n", format!("{closing}{}", refused(12, 1_000_004))),
    ];
    let others = others.map(|(end, expected)| (end.to_string(), expected));
    for (end, expected) in full.into_iter().chain(malformed).chain(others) {
        let found = folder.written(folder.input(format!("{input}{end}").as_bytes()).into());
        assert!(found.starts_with(&written), "the rounds before {end:?}");
        assert_eq!(found[written.len()..], expected, "{end:?}");
    }
}

/// As many rounds as a journal may hold, all of them blank lines, and one more.
#[test]
fn a_million_blank_lines() {
    let Some(folder) = Folder::with_sheet("a_million_blank_lines", &plain(1, &["40"])) else { return };
    let (input, written) = ("\n".repeat(MAX_ROUNDS as usize), "?\n".repeat(MAX_ROUNDS as usize));
    let closing = "=?\n# 0 0 0 1000000 0 0\n";
    let ends = [
        ("", "".to_string()),
        ("\n", "refused 13 line 1000001\n".to_string()),
        ("\n.\n", "refused 13 line 1000001\n".to_string()),
        ("x", "refused 17 line 1000001\n".to_string()),
        (".", closing.to_string()),
        (".\n\n\n", closing.to_string()),
        (".\n\n\n?", format!("{closing}refused 12 line 1000004\n")),
    ];
    for (end, expected) in ends {
        let found = folder.written(folder.input(format!("{input}{end}").as_bytes()).into());
        outside::expect_same(&format!("with {end:?}"), found.as_bytes(), (written.clone() + &expected).as_bytes());
    }
}

/// Input that comes in pieces.
#[test]
fn pieces() {
    let Some(folder) = Folder::new("pieces") else { return };
    let session = ["1", "0", "\n?1\n1", "?\n00\n0", "1\n", "."];
    let bars = ["0", "0|", "11\n", "01", "|10\n0", "0|1", "1", "|01\n11|", "11\n0?", "|", "0", "1", "\n."];
    let blank = ["\n", "1", "0\n", "\n", "\n\n0", "0", "\n\n", ".", "\n", "\n\n", "\n"];
    for (sheet, pieces) in [(session_sheet(), &session[..]), (labels(), &bars), (session_sheet(), &blank)] {
        folder.put_sheet(&sheet);
        let (input, mut pipe) = io::pipe().expect("a pipe");
        let mut command = folder.command();
        command.stdin(input);
        let run = folder.start(command);
        for piece in pieces {
            pipe.write_all(piece.as_bytes()).expect("a write");
            thread::sleep(Duration::from_millis(5));
        }
        drop(pipe);
        run.end().expect(&session::run(&sheet, pieces.concat().as_bytes()), "");
    }
}

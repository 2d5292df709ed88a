//! Programs in C that use the header: those of the examples and questions about several outputs, linked with
//! the library, and one that prints the header's numbers and texts, which are those of the Rust package.

use jigwaret::{raw, Journal, Refusal, Sheet, Verdict};
use std::fs;
use std::path::{Path, PathBuf};
use std::process::Command;

fn root() -> PathBuf {
    Path::new(env!("CARGO_MANIFEST_DIR")).join("..")
}

/// What a program prints that a compiler, with these words, makes of a source without a warning.
fn printed(name: &str, compiler: &str, words: &[&str], files: &[&str]) -> String {
    let program = Path::new(env!("CARGO_TARGET_TMPDIR")).join(name);
    let compiled = Command::new(compiler)
        .args(["-Wall", "-Wextra", "-Wpedantic", "-Werror", "-Iinclude"])
        .args(words)
        .args(files)
        .arg("-o")
        .arg(&program)
        .current_dir(root())
        .status()
        .unwrap_or_else(|error| panic!("{compiler}: {error}"));
    assert!(compiled.success(), "{name}");
    let output = Command::new(&program).output().expect("the program runs");
    assert!(output.status.success() && output.stderr.is_empty(), "{name}");
    String::from_utf8(output.stdout).expect("plain text")
}

#[test]
fn whole_session() {
    let files = ["examples/session/session.c", "target/staticlib/libjigwaret.a"];
    let expected = "?1\n11\n?1\n11\n!!\n=!!\n# 0 2 0 2 1 400\n# 1 4 0 0 1 800\n";
    assert_eq!(printed("session", "cc", &["-std=c99"], &files), expected);
}

/// C and C++, each with the words for its compiler.
const LANGUAGES: [(&str, &str, &[&str]); 2] =
    [("c", "cc", &["-std=c99"]), ("cpp", "c++", &["-x", "c++", "-std=c++11"])];

#[test]
fn two_labels_together() {
    let files = ["examples/together/together.c", "target/staticlib/libjigwaret.a"];
    let expected = "??1 together ?\n??1 together 0\n??1 together ?\n111 together 1\n";
    assert_eq!(printed("two_labels", "cc", &["-std=c99"], &files), expected);
}

#[test]
fn several_outputs_together() {
    let files = ["tests/c/together.c", "-xnone", "target/staticlib/libjigwaret.a"];
    let expected = "??\n1??0\nrefused 24: a set of outputs names one that the sheet lacks\n";
    for (language, compiler, words) in LANGUAGES {
        assert_eq!(printed(&format!("together_{language}"), compiler, words, &files), expected);
    }
}

/// The line of a number in C, from the Rust package.
fn line(number: u32) -> String {
    let text = match Refusal::try_from(number) {
        Ok(refusal) => refusal.text(),
        Err(_) if number == raw::ACCEPTED => "accepted",
        Err(_) if number == raw::WRONG_SIZES => "the record or the answer has the wrong number of elements",
        Err(_) => "nothing has this number",
    };
    format!("{number}: {text}")
}

#[test]
fn the_header() {
    let numbers = [
        ("storage", raw::STORAGE_WORDS as u32),
        ("record", raw::RECORD_NUMBERS as u32),
        ("answer", raw::ANSWER_NUMBERS as u32),
        ("rounds", Journal::MAX_ROUNDS),
        ("letters", Sheet::MAX_LETTERS as u32),
        ("false", Verdict::False.number()),
        ("true", Verdict::True.number()),
        ("open", Verdict::Open.number()),
        ("broken", Verdict::Broken.number()),
        ("accepted", raw::ACCEPTED),
        ("wrong sizes", raw::WRONG_SIZES),
    ];
    let numbers = numbers.iter().map(|(name, number)| format!("{name} {number}"));
    let expected: Vec<String> = numbers.chain((0..300).chain([u32::MAX]).map(line)).collect();
    for (language, compiler, words) in LANGUAGES {
        let found = printed(&format!("header_{language}"), compiler, words, &["tests/c/header.c"]);
        assert!(found.lines().eq(&expected), "{language}: {found}");
    }
}

/// A refusal has the same name in C and in Rust: `NO_ROUND` is `NoRound`.
#[test]
fn names_of_refusals() {
    let header = fs::read_to_string(root().join("include/jigwaret.h")).expect("the header");
    for refusal in (0..256u32).filter_map(|number| Refusal::try_from(number).ok()) {
        let mut name = String::from("JIGWARET");
        for sign in format!("{refusal:?}").chars() {
            name.extend(sign.is_uppercase().then_some('_'));
            name.push(sign.to_ascii_uppercase());
        }
        assert!(header.contains(&format!("    {name} = {},", refusal.number())), "{name}");
    }
}

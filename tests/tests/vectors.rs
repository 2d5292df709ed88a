//! The files of the programs `vectors` and `letter_sets` are the ones that the outside evaluator makes. The
//! gate runs each program on its `stdin`, if it has one, and compares what it writes with its `stdout`.

use outside::vectors::{self, Seen};
use outside::{expect_same, letter_table};
use std::fs;
use std::path::Path;

/// A file beside the sources of a program is as it was made.
fn expect_kept(name: &str, made: &[u8]) {
    let path = Path::new(env!("CARGO_MANIFEST_DIR")).join("../crates").join(name);
    let kept = fs::read(&path).unwrap_or_else(|error| panic!("{}: {error}", path.display()));
    expect_same(&format!("{name}, which `--example vectors` writes anew,"), &kept, made);
}

#[test]
fn files_are_up_to_date() {
    let cases = vectors::cases();
    let written = vectors::stdout(&cases);
    Seen::of(&cases, &written).expect_all();
    expect_kept("vectors/stdin", &vectors::stdin(&cases));
    expect_kept("vectors/stdout", written.as_bytes());
}

#[test]
fn the_printed_table_is_up_to_date() {
    expect_kept("letter_sets/stdout", letter_table::text().as_bytes());
}

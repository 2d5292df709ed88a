//! An evaluator of sheets that shares nothing with the proved library, and wrappers of that
//! library, so that the two can be compared.
//!
//! `sheet`, `circular` and `language` follow the definitions as directly as they can, and so do
//! `letters`, `pairs`, `monitor`, `journal` and `shares` for verdicts and tallies, `letter_table` for the table
//! of letter sets, and `session` for the journal program. `random` and `cases` supply the inputs, `forged`
//! storage and records, `versions` sheets that say the same in both versions, `library` makes the calls,
//! `compare` makes them on both sides, `program` runs the programs, and `vectors` has whole sessions for a
//! proved program that runs many.

pub mod cases;
pub mod circular;
pub mod compare;
pub mod forged;
pub mod journal;
pub mod language;
pub mod letter_table;
pub mod letters;
pub mod library;
pub mod monitor;
pub mod pairs;
pub mod program;
pub mod random;
pub mod session;
pub mod shares;
pub mod sheet;
pub mod vectors;
pub mod versions;

/// Bytes in hex, for the messages of failed tests.
pub fn hex(bytes: &[u8]) -> String {
    let digits: Vec<String> = bytes.iter().map(|byte| format!("{byte:02X}")).collect();
    digits.join(" ")
}

/// Compares long texts, of which `assert_eq!` would print all.
pub fn expect_same(name: &str, found: &[u8], expected: &[u8]) {
    let lengths = (found.len(), expected.len());
    let place = found.iter().zip(expected).position(|(left, right)| left != right);
    let place = place.unwrap_or(lengths.0.min(lengths.1));
    assert!(found == expected, "{name} differs from byte {place} on, lengths {lengths:?}");
}

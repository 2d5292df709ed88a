//! Inputs with answers worked out by hand: the marked examples, the example of each refusal, and
//! the places where an order of checks or a definition is easily got wrong.

use crate::journal::{round, Call, Held, ANSWER_NUMBERS, MAX_ROUNDS, RECORD_NUMBERS, STORAGE_WORDS, WRONG_SIZES};
use crate::sheet::{byte_of_read, with_version, write, NO_ASSUMPTION};

pub struct SheetCase {
    pub name: &'static str,
    pub sheet: Vec<u8>,
    /// 0 for an accepted sheet.
    pub number: u32,
}

pub struct TraceCase {
    pub name: &'static str,
    pub sheet: Vec<u8>,
    pub letters: Vec<u8>,
    pub outputs: Vec<u8>,
}

pub struct EvaluationRefusal {
    pub name: &'static str,
    pub sheet: Vec<u8>,
    pub letters: Vec<u8>,
    /// Length of the buffer.
    pub room: usize,
    pub number: u32,
}

pub struct JournalCase {
    pub name: &'static str,
    pub sheet: Vec<u8>,
    /// The calls after preparation as lines of the journal program, each with the verdicts as that
    /// program prints them, or with the number of the refusal.
    pub calls: Vec<(&'static str, &'static str)>,
}

pub struct TogetherCase {
    pub name: &'static str,
    pub sheet: Vec<u8>,
    /// The rounds as lines of the journal program, each with a mark for every set of outputs, in the order of
    /// their numbers: with two outputs none, output 0, output 1, both.
    pub rounds: Vec<(&'static str, &'static str)>,
}

/// A whole input of the journal program, and what is written for it.
pub struct SessionCase {
    pub sheet: Vec<u8>,
    pub input: &'static str,
    pub written: &'static str,
}

pub struct Preparation {
    pub name: &'static str,
    pub sheet: Vec<u8>,
    /// How many pairs are live.
    pub live: usize,
    /// The greatest, over these, of the fewest further rounds to the end.
    pub reach: usize,
}

pub struct JournalRefusal {
    pub name: &'static str,
    pub sheet: Vec<u8>,
    pub held: Held,
    pub call: Call,
    /// 0 for calls that are accepted although they look wrong.
    pub number: u32,
}

/// Bytes from hex digits and blanks.
pub fn bytes(hex: &str) -> Vec<u8> {
    hex.split_whitespace().map(|pair| u8::from_str_radix(pair, 16).expect("two hex digits")).collect()
}

/// Input 0 is "sent", input 1 "acknowledged", and output 1 is the assumption.
pub fn session_sheet() -> Vec<u8> {
    bytes("53 4C 52 01 00 02 02 01 06 40 02 41 04 61 04 06 41 02 40 04 50 04")
}

/// In version 2: input 0 is "the label shows the new price", input 1 "the till has it", and output 2,
/// the assumption, is that these are alike.
pub fn shop_sheet() -> Vec<u8> {
    bytes("53 4C 52 02 00 02 03 02 01 40 01 41 03 40 41 05")
}

/// Inputs 0 and 1 say which of two labels show the new price; outputs are these, and that they are alike.
pub fn labels() -> Vec<u8> {
    version_2(plain(2, &["40", "41", "40 41 05"]))
}

/// A sheet without an assumption, its expressions in hex.
pub fn plain(inputs: u8, expressions: &[&str]) -> Vec<u8> {
    assuming(inputs, NO_ASSUMPTION, expressions)
}

pub fn assuming(inputs: u8, assumption: u8, expressions: &[&str]) -> Vec<u8> {
    let parts: Vec<Vec<u8>> = expressions.iter().map(|expression| bytes(expression)).collect();
    write(inputs, assumption, &parts)
}

/// The same sheet in version 2.
pub fn version_2(sheet: Vec<u8>) -> Vec<u8> {
    with_version(&sheet, 2)
}

/// A header with these counts and assumption, and the same one-byte expression for each output.
pub fn counts(inputs: u8, outputs: u8, assumption: u8) -> Vec<u8> {
    let mut sheet = write(inputs, assumption, &vec![vec![0x40]; outputs as usize]);
    sheet[6] = outputs;
    sheet
}

/// So many operands, then an operator so many times, as the only expression of a sheet with one input.
fn operands_first(operands: usize, operator: u8, times: usize) -> Vec<u8> {
    let mut expression = vec![0x40; operands];
    expression.extend(vec![operator; times]);
    write(1, NO_ASSUMPTION, &[expression])
}

/// Seven full expressions: the longest sheet there is.
pub fn longest() -> Vec<u8> {
    let mut expression = vec![0x02; 64];
    expression[0] = 0x40;
    write(1, 6, &vec![expression; 7])
}

/// Whether a read differs from input 0, in 64 bytes: 32 values wait, 31 comparisons leave true if an
/// even number of them is true, and a not turns that round.
fn differs_deeply(read: u8) -> Vec<u8> {
    [vec![0x40; 31], vec![read], vec![0x05; 31], vec![0x02]].concat()
}

/// The longest sheet there is, of comparisons. Outputs 0, 2, 4 and 6, the assumption, are true where
/// the input differs from the round before, and outputs 1, 3 and 5 are the input one round earlier.
pub fn longest_comparing() -> Vec<u8> {
    let reads = [0x50, 0x41, 0x42, 0x43, 0x44, 0x45, 0x46];
    version_2(write(1, 6, &reads.map(differs_deeply)))
}

/// The first `length` bytes of a sheet.
fn cut(mut sheet: Vec<u8>, length: usize) -> Vec<u8> {
    assert!(length < sheet.len());
    sheet.truncate(length);
    sheet
}

/// A sheet with one byte replaced.
fn with(mut sheet: Vec<u8>, place: usize, byte: u8) -> Vec<u8> {
    sheet[place] = byte;
    sheet
}

/// A sheet with bytes after its end.
fn then(mut sheet: Vec<u8>, more: &str) -> Vec<u8> {
    sheet.extend(bytes(more));
    sheet
}

pub fn sheets() -> Vec<SheetCase> {
    let groups = [
        header_sheets(),
        version_sheets(),
        length_sheets(),
        byte_sheets(),
        comparing_sheets(),
        circular_sheets(),
        comparing_circles(),
        marked_sheets(),
    ];
    let cases = groups.into_iter().flatten();
    cases.map(|(name, sheet, number)| SheetCase { name, sheet, number }).collect()
}

type Named = (&'static str, Vec<u8>, u32);

fn header_sheets() -> Vec<Named> {
    let good = || plain(1, &["40"]);
    vec![
        ("empty", vec![], 1),
        ("seven bytes", cut(good(), 7), 1),
        ("three bytes with a wrong mark", b"SLX".to_vec(), 1),
        ("seven bytes with a wrong mark", cut(with(good(), 0, 0), 7), 1),
        ("wrong mark, last byte", with(good(), 2, b'X'), 2),
        ("wrong mark, first byte", with(good(), 0, b's'), 2),
        ("wrong mark, middle byte", with(good(), 1, b'R'), 2),
        ("no input", counts(0, 1, 255), 4),
        ("seven inputs", counts(7, 1, 255), 4),
        ("no output", counts(1, 0, 255), 4),
        ("eight outputs", counts(1, 8, 255), 4),
        ("six inputs and three outputs", counts(6, 3, 255), 4),
        ("two inputs and seven outputs", counts(2, 7, 255), 4),
        ("counts whose sum passes a byte", counts(1, 255, 255), 4),
        ("counts that sum to 8 beyond a byte", counts(255, 9, 255), 4),
        ("nine outputs and assumption 9", counts(1, 9, 9), 4),
        ("six inputs and two outputs", counts(6, 2, 255), 0),
        ("one input and seven outputs", counts(1, 7, 255), 0),
        ("five inputs and three outputs", counts(5, 3, 255), 0),
        ("two outputs and assumption 2", counts(1, 2, 2), 5),
        ("one output and assumption 1", counts(1, 1, 1), 5),
        ("seven outputs and assumption 7", counts(1, 7, 7), 5),
        ("assumption 254", counts(1, 7, 254), 5),
        ("assumption given as a stream number", counts(2, 2, 3), 5),
        ("bad assumption before a missing length", cut(counts(1, 1, 1), 8), 5),
        ("last output as assumption", counts(1, 7, 6), 0),
        ("output 0 as assumption", counts(1, 7, 0), 0),
    ]
}

fn version_sheets() -> Vec<Named> {
    let good = |version| with_version(&plain(1, &["40"]), version);
    let comparing = |version| with_version(&plain(1, &["40 40 05"]), version);
    vec![
        ("version 0", good(0), 3),
        ("version 1", good(1), 0),
        ("version 2", good(2), 0),
        ("version 3", good(3), 3),
        ("version 4", good(4), 3),
        ("version 255", good(255), 3),
        ("version 1 and a high byte 1", good(0x0101), 3),
        ("version 1 and a high byte 2", good(0x0201), 3),
        ("version 1 and a high byte 128", good(0x8001), 3),
        ("version 1 and a high byte 255", good(0xFF01), 3),
        ("version 2 and a high byte 1", good(0x0102), 3),
        ("version 2 and a high byte 2", good(0x0202), 3),
        ("version 2 and a high byte 128", good(0x8002), 3),
        ("version 2 and a high byte 255", good(0xFF02), 3),
        ("version 1 with its bytes swapped", good(0x0100), 3),
        ("version 2 with its bytes swapped", good(0x0200), 3),
        ("a comparison in version 0", comparing(0), 3),
        ("a comparison in version 3", comparing(3), 3),
        ("a comparison in version 2 and a high byte 1", comparing(0x0102), 3),
        ("seven bytes with a wrong version", cut(good(3), 7), 1),
        ("wrong mark before wrong version", with(good(3), 2, b'X'), 2),
        ("wrong mark and version 2", with(good(2), 2, b'X'), 2),
        ("wrong version before wrong counts", with(good(3), 5, 0), 3),
        ("wrong high byte before wrong counts, version 1", with(good(0x0101), 6, 8), 3),
        ("wrong high byte before wrong counts, version 2", with(good(0x0102), 5, 7), 3),
        ("wrong version before a wrong assumption", with(good(0), 7, 1), 3),
        ("wrong version before a missing length", cut(good(3), 8), 3),
        ("version 2 and no input", version_2(counts(0, 1, 255)), 4),
        ("version 2 and no output", version_2(counts(1, 0, 255)), 4),
        ("version 2 and seven inputs", version_2(counts(7, 1, 255)), 4),
        ("version 2 and eight outputs", version_2(counts(1, 8, 255)), 4),
        ("version 2 and six inputs and three outputs", version_2(counts(6, 3, 255)), 4),
        ("version 2 and two outputs and assumption 2", version_2(counts(1, 2, 2)), 5),
        ("version 2 and one output and assumption 1", version_2(counts(1, 1, 1)), 5),
        ("version 2 and seven outputs and assumption 7", version_2(counts(1, 7, 7)), 5),
        ("version 2 and assumption 254", version_2(counts(1, 7, 254)), 5),
        ("version 2 and an assumption given as a stream number", version_2(counts(2, 2, 3)), 5),
        ("version 2 and the last output as assumption", version_2(counts(1, 7, 6)), 0),
        ("version 2 and a missing length", cut(good(2), 8), 6),
        ("version 2 and length 65", with(good(2), 8, 65), 6),
        ("version 2 and one byte more", then(good(2), "00"), 9),
    ]
}

fn length_sheets() -> Vec<Named> {
    let full = |length: usize| write(1, 255, &[[vec![0x40], vec![0x02; length - 1]].concat()]);
    vec![
        ("header alone", cut(plain(1, &["40"]), 8), 6),
        ("length 0", plain(1, &[""]), 6),
        ("length 65", with(plain(1, &["40"]), 8, 65), 6),
        ("length 65 with 65 bytes", full(65), 6),
        ("length 64 with 64 bytes", full(64), 0),
        ("length 64 with 63 bytes", cut(full(64), 8 + 64), 6),
        ("length 255", with(plain(1, &["40"]), 8, 255), 6),
        ("length past the end by one", with(plain(1, &["40"]), 8, 2), 6),
        ("length without bytes", cut(plain(1, &["40"]), 9), 6),
        ("length past the end before unknown bytes", with(plain(1, &["05 05"]), 8, 3), 6),
        ("second length missing", cut(plain(1, &["40", "40"]), 10), 6),
        ("second length 0", plain(1, &["40", ""]), 6),
        ("last length past the end", cut(longest(), 462), 6),
        ("longest sheet", longest(), 0),
        ("longest sheet and a byte", then(longest(), "40"), 9),
        ("one byte more", then(plain(1, &["40"]), "00"), 9),
        ("one output more", then(plain(1, &["40"]), "01 40"), 9),
        ("bytes left over before circular", then(plain(1, &["41"]), "00"), 9),
    ]
}

fn byte_sheets() -> Vec<Named> {
    vec![
        ("05", plain(1, &["05"]), 7),
        ("3F", plain(1, &["3F"]), 7),
        ("48", plain(1, &["48"]), 7),
        ("4F", plain(1, &["4F"]), 7),
        ("70", plain(1, &["70"]), 7),
        ("80", plain(1, &["80"]), 7),
        ("C0", plain(1, &["C0"]), 7),
        ("FF", plain(1, &["FF"]), 7),
        ("stream m + n now", plain(1, &["42"]), 7),
        ("stream m + n earlier, false", plain(1, &["52"]), 7),
        ("stream m + n earlier, true", plain(1, &["5A"]), 7),
        ("stream m + n later, false", plain(1, &["62"]), 7),
        ("stream m + n later, true", plain(1, &["6A"]), 7),
        ("stream 7 of 8", plain(1, &["47", "40", "40", "40", "40", "40", "40"]), 0),
        ("stream 7 of 7", plain(1, &["47", "40", "40", "40", "40", "40"]), 7),
        ("false", plain(1, &["00"]), 0),
        ("true", plain(1, &["01"]), 0),
        ("not alone", plain(1, &["02"]), 8),
        ("and alone", plain(1, &["03"]), 8),
        ("or alone", plain(1, &["04"]), 8),
        ("and with one value", plain(1, &["40 03"]), 8),
        ("or with one value", plain(1, &["40 04"]), 8),
        ("two values at the end", plain(1, &["40 40"]), 8),
        ("an operator lacks a value before an unknown byte", plain(1, &["03 05"]), 8),
        ("an unknown byte before an operator that lacks a value", plain(1, &["05 03"]), 7),
        ("an operator lacks a value before a stream too high", plain(1, &["02 42"]), 8),
        ("an unknown byte before two values at the end", plain(1, &["40 40 05"]), 7),
        ("and lacks a value, then a second value comes", plain(1, &["40 03 40"]), 8),
        ("output 0 lacks a value and output 1 is missing", cut(plain(1, &["03", "40"]), 10), 8),
        ("output 0 is unknown and output 1 is missing", cut(plain(1, &["05", "40"]), 10), 7),
        ("output 0 leaves two values and output 1 has length 65", with(plain(1, &["40 40", "40"]), 11, 65), 8),
        ("output 0 lacks a value and output 1 is unknown", plain(1, &["03", "05"]), 8),
        ("output 0 is unknown and output 1 lacks a value", plain(1, &["05", "03"]), 7),
        ("output 1 has length 0 and output 2 is unknown", plain(1, &["40", "", "05"]), 6),
        ("values stay in their own expression", plain(1, &["40 40", "03"]), 8),
        ("output 1 finds no value left by output 0", plain(1, &["40", "02"]), 8),
        ("two values at the end before bytes left over", then(plain(1, &["40 40"]), "00"), 8),
        ("32 operands and 31 operators", operands_first(32, 0x03, 31), 0),
        ("33 operands and 31 operators", operands_first(33, 0x03, 31), 8),
        ("32 operands and 32 operators", operands_first(32, 0x03, 32), 8),
        ("64 operands", operands_first(64, 0x03, 0), 8),
        ("64 operators", operands_first(0, 0x03, 64), 8),
    ]
}

/// A sheet in version 1 and in version 2, with the number of each.
fn in_both(name: &'static str, sheet: Vec<u8>, first: u32, second: u32) -> [Named; 2] {
    [(name, with_version(&sheet, 1), first), (name, version_2(sheet), second)]
}

/// Rules 6 to 9 with the byte 05.
fn comparing_sheets() -> Vec<Named> {
    let one = |name, expression, first, second| in_both(name, plain(1, &[expression]), first, second);
    let two = |name, expressions: [&str; 2], first, second| in_both(name, plain(1, &expressions), first, second);
    let deep = |name, operands, times, second| in_both(name, operands_first(operands, 0x05, times), 7, second);
    vec![
        one("05 alone", "05", 7, 8),
        one("05 with one value", "40 05", 7, 8),
        one("05 with two values", "40 40 05", 7, 0),
        one("05 with three values", "40 40 40 05", 7, 8),
        one("05 twice with two values", "40 40 05 05", 7, 8),
        one("05 twice with three values", "40 40 40 05 05", 7, 0),
        one("05 of what 05 left", "40 40 05 40 05", 7, 0),
        one("05 of constants", "00 01 05", 7, 0),
        one("05 and not", "40 40 05 02", 7, 0),
        one("05 between two values", "40 05 40", 7, 8),
        one("05 beside and and or", "40 50 05 60 03 40 04", 7, 0),
        one("no 05", "40 02 50 03 60 04", 0, 0),
        one("two values at the end", "40 40", 8, 8),
        one("not lacks a value before 05", "02 05", 8, 8),
        one("and lacks both values before 05", "03 05", 8, 8),
        one("or lacks a value before 05", "40 04 05", 8, 8),
        one("05 lacks both values before and", "05 03", 7, 8),
        one("05 lacks a value before an unknown byte", "40 05 06", 7, 8),
        one("05 has its values before an unknown byte", "40 40 05 06", 7, 7),
        one("an unknown byte before 05 without values", "06 05", 7, 7),
        one("05 lacks both values before a stream too high", "05 42", 7, 8),
        one("a stream too high before 05", "42 05", 7, 7),
        one("a stream too high as an operand of 05", "40 42 05", 7, 7),
        one("06", "06", 7, 7),
        one("06 with two values", "40 40 06", 7, 7),
        one("07 with two values", "40 40 07", 7, 7),
        one("0D with two values", "40 40 0D", 7, 7),
        one("15 with two values", "40 40 15", 7, 7),
        one("3F with two values", "40 40 3F", 7, 7),
        one("48 with two values", "40 40 48", 7, 7),
        one("4F with two values", "40 40 4F", 7, 7),
        one("70 with two values", "40 40 70", 7, 7),
        one("85 with two values", "40 40 85", 7, 7),
        one("FF with two values", "40 40 FF", 7, 7),
        two("05 in output 0", ["40 40 05", "40"], 7, 0),
        two("05 in output 1", ["40", "40 41 05"], 7, 0),
        two("05 in output 1 finds no value left by output 0", ["40", "40 05"], 7, 8),
        two("05 lacks a value in output 0 and output 1 is unknown", ["05", "06"], 7, 8),
        two("output 0 is unknown and 05 lacks a value in output 1", ["06", "05"], 7, 7),
        two("two values at the end of output 0 and 05 in output 1", ["40 40", "40 40 05"], 8, 8),
        two("05 in output 0 and output 1 has length 0", ["40 40 05", ""], 7, 6),
        two("output 0 has length 0 and 05 in output 1", ["", "40 40 05"], 6, 6),
        in_both("length past the end before 05", with(plain(1, &["40 40 05"]), 8, 4), 6, 6),
        in_both("length that ends before 05", with(plain(1, &["40 40 05"]), 8, 2), 8, 8),
        in_both("05 left over", then(plain(1, &["40"]), "05"), 9, 9),
        in_both("05 and a byte left over", then(plain(1, &["40 40 05"]), "05"), 7, 9),
        in_both("05 as a length", plain(1, &["40 40 40 03 03"]), 0, 0),
        in_both("05 as the number of inputs", counts(5, 3, 255), 0, 0),
        in_both("05 as the assumption", counts(1, 7, 5), 0, 0),
        deep("32 operands and 05 31 times", 32, 31, 0),
        deep("33 operands and 05 31 times", 33, 31, 8),
        deep("32 operands and 05 32 times", 32, 32, 8),
        deep("63 operands and 05", 63, 1, 8),
        deep("05 64 times", 0, 64, 8),
        in_both("64 bytes with 05 31 times", write(1, 255, &[differs_deeply(0x50)]), 7, 0),
        in_both("longest sheet without 05", longest(), 0, 0),
        in_both("longest sheet with 05", longest_comparing(), 7, 0),
        in_both("longest sheet with 05, cut", cut(longest_comparing(), 462), 7, 6),
        in_both("longest sheet with 05, and a byte", then(longest_comparing(), "05"), 7, 9),
    ]
    .concat()
}

fn circular_sheets() -> Vec<Named> {
    let ring = |last: &'static str| plain(1, &["42", "43", "44", "45", "46", "47", last]);
    let linked = |back: &'static str| plain(1, &["61 42 04", "43", "44 53 04", back]);
    vec![
        ("own value", plain(1, &["41"]), 10),
        ("own value made irrelevant", plain(1, &["41 00 03"]), 10),
        ("own value negated", plain(1, &["41 02"]), 10),
        ("own value after others", plain(6, &["40 41 42 43 44 45 46 03 03 03 03 03 03", "40"]), 10),
        ("own earlier value, true first", plain(1, &["59"]), 0),
        ("both neighbours made irrelevant", plain(1, &["01 51 61 03 04"]), 10),
        ("both neighbours with defaults true", plain(1, &["59 69 03"]), 10),
        ("inputs in all three rounds", plain(1, &["50 40 60 03 03"]), 0),
        ("two outputs read each other now", plain(1, &["42", "41"]), 10),
        ("two outputs, one read earlier", plain(1, &["42", "51"]), 0),
        ("two outputs, both reads earlier", plain(1, &["52", "51"]), 0),
        ("two outputs, both reads later", plain(1, &["62", "61"]), 0),
        ("three outputs, later once and earlier twice", plain(1, &["62", "53", "51"]), 0),
        ("three outputs, later twice and earlier once", plain(1, &["62", "63", "51"]), 0),
        ("three outputs, later, earlier, now", plain(1, &["62", "53", "41"]), 10),
        ("four outputs, cycles +2 and -3", plain(1, &["62 53 03", "61", "54", "51"]), 10),
        ("four outputs, cycles +2 and +1", plain(1, &["62 53 03", "61", "64", "61"]), 0),
        ("six outputs, cycles +3 and -4", plain(1, &["62 54 03", "63", "61", "55", "56", "51"]), 10),
        ("seven outputs, cycles +3 and -5", plain(1, &["62 54 03", "63", "61", "55", "56", "57", "51"]), 10),
        ("seven outputs, cycles -3 and -5", plain(1, &["52 54 03", "53", "51", "55", "56", "57", "51"]), 0),
        ("earlier alone and later alone", plain(1, &["51", "62 41 04"]), 0),
        ("earlier alone reads later alone", plain(1, &["51 62 04", "62"]), 0),
        ("own earlier value and an output that looks back to another", plain(1, &["51 62 04", "52"]), 0),
        ("the same with a read back", plain(1, &["51 62 04", "52 51 04"]), 10),
        ("seven outputs in a ring now", ring("41"), 10),
        ("seven outputs in a ring, one read earlier", ring("51"), 0),
        ("seven outputs in a ring, one read later", ring("69"), 0),
        ("opposite self reads joined both ways", linked("41"), 10),
        ("opposite self reads joined one way", linked("40"), 0),
        ("circular only in the last output", plain(1, &["40", "41", "42 43 03"]), 10),
        ("circular in the assumption", assuming(1, 1, &["40", "42"]), 10),
    ]
}

/// Both operands of 05 are read, whatever the comparison makes of them.
fn comparing_circles() -> Vec<Named> {
    let one = |name, expression: &str, second| in_both(name, plain(1, &[expression]), 7, second);
    let more = |name, expressions: &[&str], second| in_both(name, plain(1, expressions), 7, second);
    let deep = |name, own: usize, second| {
        let mut operands = ["40"; 32];
        operands[own] = "41";
        one(name, &format!("{}{}", operands.join(" "), " 05".repeat(31)), second)
    };
    vec![
        one("own value compared with itself", "41 41 05", 10),
        one("own value on the left", "41 40 05", 10),
        one("own value on the right", "40 41 05", 10),
        one("own value compared with true", "41 01 05", 10),
        one("own value compared, made irrelevant", "41 41 05 01 04", 10),
        one("own value inside the left operand", "41 02 40 03 40 05", 10),
        one("own value inside the right operand", "40 40 41 05 05", 10),
        one("own earlier value compared with itself", "51 59 05", 0),
        one("own later value compared with itself", "61 69 05", 0),
        one("both neighbours compared", "51 61 05", 10),
        one("both neighbours compared, true outside", "59 69 05", 10),
        one("inputs of all three rounds compared", "50 40 60 05 05", 0),
        deep("own value as the first of 32 operands", 0, 10),
        deep("own value as the last of 32 operands", 31, 10),
        more("two outputs compare themselves with each other", &["42 40 05", "40 41 05"], 10),
        more("two outputs compare each other with itself", &["42 42 05", "41 41 05"], 10),
        more("two outputs compare each other, one earlier", &["42 42 05", "51 51 05"], 0),
        more("four outputs, cycles +2 and -3 compared", &["62 53 05", "61", "54", "51"], 10),
        more("four outputs, cycles +2 and +1 compared", &["62 53 05", "61", "64", "61"], 0),
        more("circular without 05, and 05 in another output", &["41", "40 40 05"], 10),
        in_both("circular in an assumption that compares", assuming(1, 1, &["40", "42 42 05"]), 7, 10),
        in_both("circular without 05", plain(1, &["41"]), 10, 10),
        in_both("bytes left over before circular", then(plain(1, &["41 41 05"]), "00"), 7, 9),
    ]
    .concat()
}

fn marked_sheets() -> Vec<Named> {
    vec![
        ("session sheet", session_sheet(), 0),
        ("example a", plain(1, &["69"]), 0),
        ("example b", plain(1, &["61"]), 0),
        ("example c", plain(1, &["51"]), 0),
        ("example d", plain(1, &["68 60 02 03"]), 0),
        ("example e", plain(1, &["52", "61"]), 10),
        ("example f", plain(1, &["51 61 03"]), 10),
        ("example g", plain(1, &["40 40 02 04"]), 0),
        ("example h", assuming(1, 1, &["40", "40 02 60 04"]), 0),
        ("example i", assuming(1, 1, &["40", "40 02 68 04"]), 0),
        ("example j", assuming(1, 0, &["00"]), 0),
        ("example k", plain(1, &["40"]), 0),
        ("example k as the assumption", assuming(1, 0, &["40"]), 0),
    ]
}

pub fn traces() -> Vec<TraceCase> {
    plain_traces().into_iter().chain(comparing_traces()).collect()
}

fn case(name: &'static str, sheet: Vec<u8>, letters: &[u8], outputs: &[u8]) -> TraceCase {
    TraceCase { name, sheet, letters: letters.to_vec(), outputs: outputs.to_vec() }
}

fn plain_traces() -> Vec<TraceCase> {
    let h = || assuming(1, 1, &["40", "40 02 60 04"]);
    let i = || assuming(1, 1, &["40", "40 02 68 04"]);
    let differs = |neighbour: &str| plain(1, &[&format!("{neighbour} 40 02 03 {neighbour} 02 40 03 04")]);
    vec![
        case("session sheet", session_sheet(), &[1, 2, 0], &[3, 3, 3]),
        case("session sheet, one letter", session_sheet(), &[1], &[2]),
        case("example a", plain(1, &["69"]), &[0, 1, 0], &[1, 1, 1]),
        case("example b", plain(1, &["61"]), &[0, 1, 0], &[0, 0, 0]),
        case("example c", plain(1, &["51"]), &[0, 1, 0], &[0, 0, 0]),
        case("own earlier value, true first", plain(1, &["59"]), &[0, 1, 0], &[1, 1, 1]),
        case("example d is true in the last round only", plain(1, &["68 60 02 03"]), &[1, 0, 1], &[0, 0, 1]),
        case("example d, one letter", plain(1, &["68 60 02 03"]), &[0], &[1]),
        case("example g", plain(1, &["40 40 02 04"]), &[1, 0], &[1, 1]),
        case("example h breaks its assumption at the end", h(), &[1], &[1]),
        case("example h, two letters", h(), &[1, 1], &[3, 1]),
        case("example i", i(), &[1], &[3]),
        case("example i breaks its assumption in round 1", i(), &[1, 0], &[1, 2]),
        case("example j breaks its assumption always", assuming(1, 0, &["00"]), &[0, 1], &[0, 0]),
        case("input earlier, false first", plain(1, &["50"]), &[1, 0, 1, 1], &[0, 1, 0, 1]),
        case("input earlier, true first", plain(1, &["58"]), &[1, 0, 1, 1], &[1, 1, 0, 1]),
        case("input later, false last", plain(1, &["60"]), &[1, 0, 1, 1], &[0, 1, 1, 0]),
        case("input later, true last", plain(1, &["68"]), &[1, 0, 1, 1], &[0, 1, 1, 1]),
        case("parity from the start", differs("51"), &[1, 1, 0, 1], &[1, 0, 0, 1]),
        case("parity from the end", differs("61"), &[1, 1, 0, 1], &[1, 0, 1, 1]),
        case("parity from the start, true before it", differs("59"), &[1, 1, 0, 1], &[0, 1, 1, 0]),
        case("six inputs", plain(6, &["45", "40"]), &[32, 1, 33, 62], &[1, 2, 3, 1]),
        case("seven outputs", plain(1, &["40", "41", "42", "43", "44", "45", "46"]), &[1, 0], &[127, 0]),
        case("outputs defined by later ones", plain(1, &["42", "43", "40"]), &[1, 0, 1], &[7, 0, 7]),
        case("later once and earlier twice", plain(1, &["62 40 04", "53", "51"]), &[0, 1, 0, 0], &[0, 1, 5, 6]),
    ]
}

/// In version 2. With two inputs, input 0 is "the label shows the new price" and input 1 "the till has
/// it".
fn comparing_traces() -> Vec<TraceCase> {
    let one = |expression| version_2(plain(1, &[expression]));
    let two = |expression| version_2(plain(2, &[expression]));
    let three = |expression| version_2(plain(3, &[expression]));
    let (pairs, triples) = ([0, 1, 2, 3], [0, 1, 2, 3, 4, 5, 6, 7]);
    let outputs = version_2(plain(2, &["40", "41 02", "42 43 05"]));
    let deep = |read| version_2(write(2, NO_ASSUMPTION, &[differs_deeply(read)]));
    vec![
        case("label and till are alike", two("40 41 05"), &pairs, &[1, 0, 0, 1]),
        case("label and till differ", two("40 41 05 02"), &pairs, &[0, 1, 1, 0]),
        case("till and label are alike", two("41 40 05"), &pairs, &[1, 0, 0, 1]),
        case("the label is alike with itself", two("40 40 05"), &pairs, &[1, 1, 1, 1]),
        case("the label is alike with its negation", two("40 40 02 05"), &pairs, &[0, 0, 0, 0]),
        case("the label is alike with true", two("40 01 05"), &pairs, &[0, 1, 0, 1]),
        case("the label is alike with false", two("40 00 05"), &pairs, &[1, 0, 1, 0]),
        case("constants compared", two("00 00 05 01 01 05 03 00 01 05 02 03"), &pairs, &[1, 1, 1, 1]),
        case("an odd number of three", three("40 41 05 42 05"), &triples, &[0, 1, 1, 0, 1, 0, 0, 1]),
        case("the same, the last two first", three("40 41 42 05 05"), &triples, &[0, 1, 1, 0, 1, 0, 0, 1]),
        case("alike with both", three("40 41 42 03 05"), &triples, &[1, 0, 1, 0, 1, 0, 0, 1]),
        case("alike with either", three("40 41 42 04 05"), &triples, &[1, 0, 0, 1, 0, 1, 0, 1]),
        case("alike, and the third", three("40 41 05 42 03"), &triples, &[0, 0, 0, 0, 1, 0, 0, 1]),
        case("alike, or the third", three("40 41 05 42 04"), &triples, &[1, 0, 0, 1, 1, 1, 1, 1]),
        case("as one round earlier, false first", one("40 50 05"), &[1, 0, 0, 1, 1], &[0, 0, 1, 0, 1]),
        case("as one round earlier, true first", one("40 58 05"), &[1, 0, 0, 1, 1], &[1, 0, 1, 0, 1]),
        case("as one round later, false last", one("40 60 05"), &[1, 0, 0, 1, 1], &[0, 1, 0, 1, 0]),
        case("as one round later, true last", one("40 68 05"), &[1, 0, 0, 1, 1], &[0, 1, 0, 1, 1]),
        case("the rounds on both sides are alike", one("50 60 05"), &[1, 0, 0, 1, 1], &[1, 0, 0, 0, 0]),
        case("as its own earlier value", one("51 40 05"), &[1, 1, 0, 1], &[0, 0, 1, 1]),
        case("as its own later value", one("40 61 05"), &[1, 1, 0, 1], &[1, 1, 1, 0]),
        case("outputs are alike", outputs, &pairs, &[2, 7, 4, 1]),
        case("32 values wait", deep(0x41), &pairs, &[0, 1, 1, 0]),
        case("32 values wait, all the same", deep(0x40), &pairs, &[0, 0, 0, 0]),
        case("longest sheet with 05", longest_comparing(), &[1, 0, 1, 1, 0], &[85, 127, 85, 42, 127]),
    ]
}

pub fn evaluation_refusals() -> Vec<EvaluationRefusal> {
    let own = [plain(1, &["40"]), version_2(plain(1, &["40 50 05"]))].into_iter().flat_map(letter_refusals);
    let refused = sheets().into_iter().filter(|case| case.number != 0);
    let by_sheet = refused.flat_map(|case| {
        let (name, sheet, number) = (case.name, case.sheet, case.number);
        [
            (name, sheet.clone(), vec![], 0, number),
            (name, sheet.clone(), vec![0, 1], 1, number),
            (name, sheet.clone(), vec![255], 1, number),
            (name, sheet, vec![0, 0, 0], 8, number),
        ]
    });
    let cases = own.chain(by_sheet);
    cases.map(|(name, sheet, letters, room, number)| EvaluationRefusal { name, sheet, letters, room, number }).collect()
}

type RefusedLetters = (&'static str, Vec<u8>, Vec<u8>, usize, u32);

/// Rules 16 and 11 with an accepted sheet of one input, and with the same sheet of six inputs.
fn letter_refusals(sheet: Vec<u8>) -> Vec<RefusedLetters> {
    let one = || sheet.clone();
    let wide = || with(sheet.clone(), 5, 6);
    let last = |letters: usize, letter: u8| [vec![1; letters - 1], vec![letter]].concat();
    vec![
        ("no letters", one(), vec![], 0, 16),
        ("no letters and a buffer", one(), vec![], 10, 16),
        ("4,097 letters", one(), vec![0; 4097], 4097, 16),
        ("4,097 letters and a larger buffer", one(), vec![0; 4097], 5000, 16),
        ("65,537 letters", one(), vec![0; 65_537], 65_537, 16),
        ("one letter and no buffer", one(), vec![0], 0, 16),
        ("two letters and room for one", one(), vec![0, 1], 1, 16),
        ("4,096 letters and room for one less", one(), vec![0; 4096], 4095, 16),
        ("short buffer before a bad letter", one(), vec![2, 2], 1, 16),
        ("too many letters before bad ones", one(), vec![255; 4097], 4097, 16),
        ("letter 2 of one input", one(), vec![2], 1, 11),
        ("letter 3 of one input", one(), vec![3], 1, 11),
        ("letter 255", one(), vec![255], 1, 11),
        ("letter 64 of six inputs", wide(), vec![64], 1, 11),
        ("letter 128 of six inputs", wide(), vec![63, 128, 63], 3, 11),
        ("letter 4 of the session sheet", session_sheet(), vec![1, 2, 4], 3, 11),
        ("bad first letter", one(), vec![2, 0, 1], 5, 11),
        ("bad last letter", one(), last(20, 2), 30, 11),
        ("bad last letter of 4,096", one(), last(4096, 2), 4096, 11),
    ]
}

pub fn journals() -> Vec<JournalCase> {
    let groups =
        [marked_journals(), assuming_journals(), plain_journals(), comparing_journals(), alternative_journals()];
    let cases = groups.into_iter().flatten();
    cases.map(|(name, sheet, calls)| JournalCase { name, sheet, calls }).collect()
}

type Lines = (&'static str, Vec<u8>, Vec<(&'static str, &'static str)>);

fn marked_journals() -> Vec<Lines> {
    let session = vec![("10", "?1"), ("?1", "11"), ("1?", "?1"), ("00", "11"), ("01", "!!"), (".", "!!"), ("00", "12")];
    let h = || assuming(1, 1, &["40", "40 02 60 04"]);
    let i = || assuming(1, 1, &["40", "40 02 68 04"]);
    vec![
        ("whole session", session_sheet(), session),
        ("example a", plain(1, &["69"]), vec![("?", "1")]),
        ("example b", plain(1, &["61"]), vec![("?", "0")]),
        ("example c", plain(1, &["51"]), vec![("?", "0")]),
        ("example d", plain(1, &["68 60 02 03"]), vec![("?", "?"), ("1", "?"), (".", "1")]),
        ("example d, closed at once", plain(1, &["68 60 02 03"]), vec![("?", "?"), (".", "1")]),
        ("example g", plain(1, &["40 40 02 04"]), vec![("?", "1"), ("?", "1"), (".", "1")]),
        ("example h", h(), vec![("?", "01"), ("?", "01"), (".", "01")]),
        ("example h, broken", h(), vec![("?", "01"), ("1", "!!"), ("0", "!!"), (".", "!!")]),
        ("example i", i(), vec![("?", "?1"), ("0", "01"), ("?", "?1"), (".", "?1")]),
        ("example i, broken", i(), vec![("1", "11"), ("?", "11"), ("0", "!!"), ("1", "!!"), (".", "!!")]),
        ("example j", assuming(1, 0, &["00"]), vec![("?", "!"), ("1", "!"), (".", "!")]),
        ("example k", plain(1, &["40"]), vec![("?", "?"), ("1", "1"), ("0", "0"), (".", "0")]),
        ("example k as the assumption", assuming(1, 0, &["40"]), vec![("?", "1"), ("1", "1"), ("0", "!")]),
    ]
}

fn assuming_journals() -> Vec<Lines> {
    let ahead = || assuming(1, 1, &["40", "40 60 04"]);
    let rising = || assuming(1, 1, &["50", "40 50 02 04"]);
    let behind = || assuming(1, 1, &["40", "58"]);
    vec![
        ("closing breaks what the round left whole", ahead(), vec![("0", "01"), (".", "!!")]),
        ("a further round mends it", ahead(), vec![("0", "01"), ("1", "11"), (".", "11")]),
        ("or does not", ahead(), vec![("0", "01"), ("0", "!!"), ("1", "!!"), (".", "!!")]),
        ("a known round settles an unknown one before it", rising(), vec![("?", "01"), ("0", "01"), ("1", "01")]),
        ("and one after it", rising(), vec![("1", "01"), ("?", "11"), ("?", "11"), ("0", "!!"), (".", "!!")]),
        ("the round after the last is not asked for", behind(), vec![("?", "?1"), (".", "?1")]),
        ("nothing may follow", behind(), vec![("0", "01"), ("?", "!!"), (".", "!!")]),
        ("nothing followed", behind(), vec![("1", "11"), ("0", "01"), (".", "01")]),
        ("no trace may end", assuming(1, 0, &["60 68 02 04"]), vec![("?", "!"), (".", "!")]),
        ("no trace may begin", assuming(1, 1, &["40", "50"]), vec![("1", "!!"), (".", "!!")]),
        ("traces of one round only", assuming(1, 0, &["58 50 02 03 68 60 02 03 03"]), vec![("?", "1"), ("?", "!")]),
        ("the assumption is an output's number", assuming(2, 1, &["40", "41"]), vec![("0?", "01"), ("10", "!!")]),
        ("the assumption is output 0", assuming(2, 0, &["40", "41"]), vec![("??", "1?"), ("?0", "10"), ("0?", "!!")]),
        ("a closed journal stays so", ahead(), vec![("1", "11"), (".", "11"), (".", "12"), ("0", "12"), ("0", "12")]),
    ]
}

fn plain_journals() -> Vec<Lines> {
    let copies = || plain(1, &["40", "41", "42", "43", "44", "45", "46"]);
    let all = "40 41 42 43 44 45 03 03 03 03 03";
    let six = vec![("?????1", "1?"), ("111111", "11"), ("????0?", "?0"), ("000001", "10"), (".", "10")];
    vec![
        ("input earlier", plain(1, &["50"]), vec![("1", "0"), ("?", "1"), ("0", "?"), ("?", "0"), (".", "0")]),
        ("input earlier, true first", plain(1, &["58"]), vec![("0", "1"), ("?", "0"), (".", "0")]),
        ("input later", plain(1, &["60"]), vec![("1", "?"), ("1", "?"), (".", "0")]),
        ("input later, true last", plain(1, &["68"]), vec![("0", "?"), ("0", "?"), (".", "1")]),
        ("now or later", plain(1, &["40 61 04"]), vec![("0", "?"), ("1", "1"), ("0", "?"), (".", "0")]),
        ("now and ever after", plain(1, &["40 69 03"]), vec![("1", "?"), ("0", "0"), ("1", "?"), (".", "1")]),
        ("now or earlier", plain(1, &["40 51 04"]), vec![("?", "?"), ("0", "?"), ("1", "1"), ("?", "1"), (".", "1")]),
        ("one unknown, several reads", plain(1, &["40", "41 02", "41 42 03", "41 42 04"]), vec![("?", "??01")]),
        ("seven outputs", copies(), vec![("?", "???????"), ("1", "1111111"), ("0", "0000000"), (".", "0000000")]),
        ("six inputs", plain(6, &["45", all]), six),
        ("closing first", plain(1, &["40"]), vec![(".", "14"), ("1", "1"), ("?", "?"), (".", "?"), ("?", "12")]),
    ]
}

/// In version 2. Input 0 is "the label shows the new price" and input 1 "the till has it".
fn comparing_journals() -> Vec<Lines> {
    let one = |expression| version_2(plain(1, &[expression]));
    let assumed = |expression| version_2(assuming(1, 1, &["40", expression]));
    let unlike = version_2(assuming(2, 2, &["40", "41", "40 41 05 02"]));
    let before = version_2(assuming(2, 1, &["50", "40 41 05"]));
    let open = |second| version_2(plain(1, &["40", second, "41 42 05"]));
    let alike = vec![("11", "1"), ("10", "0"), ("1?", "?"), ("?0", "?"), ("??", "?"), ("00", "1"), (".", "1")];
    let turns = vec![("?", "1010101"), ("?", "1111111"), ("1", "1010101"), ("1", "!!!!!!!"), (".", "!!!!!!!")];
    vec![
        ("label and till are alike", version_2(plain(2, &["40 41 05"])), alike),
        ("either unheard leaves it open at closing", version_2(plain(2, &["40 41 05"])), vec![("?1", "?"), (".", "?")]),
        ("a signal is alike with itself", one("40 40 05"), vec![("?", "1"), ("0", "1"), ("?", "1"), (".", "1")]),
        ("a signal is never alike with its negation", one("40 40 02 05"), vec![("?", "0"), ("1", "0"), (".", "0")]),
        ("open outputs that are alike", open("40"), vec![("?", "??1"), ("1", "111"), (".", "111")]),
        ("open outputs that differ", open("40 02"), vec![("?", "??0"), ("0", "010"), (".", "010")]),
        ("the till settles the label", shop_sheet(), vec![("?1", "111"), ("?0", "001"), (".", "001")]),
        ("the label settles the till", shop_sheet(), vec![("0?", "001"), ("1?", "111"), (".", "111")]),
        ("neither was heard", shop_sheet(), vec![("??", "??1"), ("11", "111"), ("??", "??1"), (".", "??1")]),
        ("label and till break it", shop_sheet(), vec![("1?", "111"), ("10", "!!!"), ("11", "!!!"), (".", "!!!")]),
        ("assumed unlike", unlike, vec![("1?", "101"), ("?1", "011"), ("??", "??1"), ("00", "!!!")]),
        ("the round before is certain too", before, vec![("?1", "01"), ("?0", "11"), ("??", "01"), ("??", "?1")]),
        ("assumed as before, true first", assumed("40 58 05"), vec![("?", "11"), ("?", "11"), ("0", "!!")]),
        ("assumed as after, true last", assumed("40 68 05"), vec![("?", "11"), ("1", "11"), (".", "11")]),
        ("assumed as after, false last", assumed("40 60 05"), vec![("?", "01"), ("1", "!!"), (".", "!!")]),
        ("as one round earlier", one("40 50 05"), vec![("0", "1"), ("?", "?"), ("1", "?"), ("1", "1"), ("0", "0")]),
        ("as one round later, false last", one("40 60 05"), vec![("0", "?"), ("1", "?"), (".", "0")]),
        ("as one round later, closed at once", one("40 60 05"), vec![("0", "?"), (".", "1")]),
        ("as one round later, true last", one("40 68 05"), vec![("1", "?"), ("?", "?"), (".", "?")]),
        ("as its own earlier value", one("51 40 05"), vec![("0", "1"), ("?", "?"), ("0", "?"), (".", "?")]),
        ("longest sheet with 05", longest_comparing(), turns),
    ]
}

/// Rounds of several alternatives. With two inputs these are two labels, each with the old price or the
/// new one; where it is assumed, none goes back to the old one.
fn alternative_journals() -> Vec<Lines> {
    let three = || plain(3, &["40 41 03", "40 41 04 42 04", "40 02 41 02 03 42 02 03"]);
    let before = || version_2(plain(2, &["50 51 05", "50"]));
    let kept = || assuming(2, 1, &["40 41 03", "50 02 40 04 51 02 41 04 03"]);
    let unlike = || version_2(assuming(2, 1, &["40", "40 41 05 02"]));
    let six = || version_2(plain(6, &["40 41 05", "45"]));
    let later = || assuming(1, 1, &["40", "40 02 60 04"]);
    vec![
        ("the labels agree", labels(), vec![("00|11", "??1"), ("??", "???"), (".", "???")]),
        ("the labels differ", labels(), vec![("01|10", "??0"), (".", "??0")]),
        ("one alternative within another", labels(), vec![("0?|01", "0??"), ("01|0?", "0??"), (".", "0??")]),
        ("an alternative twice", labels(), vec![("01|01", "010"), ("11|11|11", "111"), (".", "111")]),
        ("alternatives that settle an input", labels(), vec![("00|01", "0??"), ("11|01", "?1?"), (".", "?1?")]),
        ("alternatives that leave one letter out", labels(), vec![("1?|?1", "???"), ("0?|?0", "???"), (".", "???")]),
        ("exactly one of three", three(), vec![("100|010|001", "010"), ("??0|001", "???"), (".", "???")]),
        ("all three or none", three(), vec![("000|111", "???"), ("111|111", "110"), ("000", "001"), (".", "001")]),
        ("the round before, alike", before(), vec![("00|11", "10"), ("??", "1?"), ("01", "??"), (".", "??")]),
        ("the round before, one of two", before(), vec![("10|11", "10"), ("??", "?1"), (".", "?1")]),
        (
            "agreed, then one shows the old price",
            kept(),
            vec![("00|11", "?1"), ("?0", "01"), ("01|10", "01"), (".", "01")],
        ),
        ("agreed, and neither goes back", kept(), vec![("1?", "?1"), ("00|11", "11"), ("?1", "11"), (".", "11")]),
        ("no alternative without going back", kept(), vec![("11", "11"), ("00|01", "!!"), ("11", "!!"), (".", "!!")]),
        ("one alternative without going back", kept(), vec![("01", "01"), ("10|11", "11"), ("?1|1?", "11")]),
        ("an assumption leaves one alternative", unlike(), vec![("00|01", "01"), ("11|10", "11"), (".", "11")]),
        ("an assumption leaves no alternative", unlike(), vec![("00|11", "!!"), ("??", "!!"), (".", "!!")]),
        ("both values of one input", plain(1, &["40"]), vec![("0|1", "?"), ("1|0|1", "?"), ("1|1", "1"), (".", "1")]),
        ("one alternative would need a trace without end", later(), vec![("0|1", "01"), ("1|1", "!!"), (".", "!!")]),
        ("six inputs", six(), vec![("000000|111111", "1?"), ("?????0|?????1", "??"), ("01???1|10???1", "01")]),
    ]
}

pub fn together() -> Vec<TogetherCase> {
    let groups = [sets_of_inputs(), sets_over_time(), sets_of_many()];
    let cases = groups.into_iter().flatten();
    cases.map(|(name, sheet, rounds)| TogetherCase { name, sheet, rounds }).collect()
}

/// Outputs that read this round alone.
fn sets_of_inputs() -> Vec<Lines> {
    let apart = || plain(1, &["40", "40 02"]);
    let pairwise = || plain(2, &["40", "41", "40 41 03 02"]);
    let never_both = || assuming(2, 2, &["40", "41", "40 41 03 02"]);
    let always_one = || assuming(2, 0, &["40 41 04", "40", "41"]);
    vec![
        ("an output and its negation", apart(), vec![("?", "1??0"), ("1", "1100"), ("0", "1010")]),
        ("an output twice", plain(1, &["40", "40"]), vec![("?", "1???"), ("1", "1111"), ("0", "1000")]),
        ("two inputs", plain(2, &["40", "41"]), vec![("??", "1???"), ("1?", "11??"), ("?0", "1?00"), ("11", "1111")]),
        ("one of two inputs", plain(2, &["40", "41"]), vec![("10|01", "1??0"), ("00|11", "1???"), ("0?|10", "1??0")]),
        ("true and open", plain(1, &["01", "40"]), vec![("?", "11??"), ("0", "1100"), ("1", "1111")]),
        ("false and open", plain(1, &["00", "40"]), vec![("?", "10?0"), ("0", "1000"), ("1", "1010")]),
        ("any two of three, not all", pairwise(), vec![("??", "1??????0"), ("1?", "11????00"), ("01|10", "1??01??0")]),
        ("labels that agree", labels(), vec![("00|11", "1???1???"), ("01|10", "1??00000"), ("??", "1???????")]),
        (
            "what the assumption rules out",
            never_both(),
            vec![("??", "1??01??0"), ("?1", "10101010"), ("11", "!!!!!!!!")],
        ),
        ("what the assumption leaves", always_one(), vec![("??", "11??????"), ("0?", "11001100"), ("00", "!!!!!!!!")]),
    ]
}

/// Outputs that read the rounds beside it. What follows is open until it is heard.
fn sets_over_time() -> Vec<Lines> {
    let next = || plain(1, &["60", "68 02"]);
    let last = || plain(1, &["68 60 02 03", "60 68 02 04"]);
    let before = || plain(1, &["50", "50 02"]);
    let h = || assuming(1, 1, &["40", "40 02 60 04"]);
    let session = vec![("10", "1?1?"), ("?1", "1111"), ("1?", "1?1?"), ("00", "1111"), ("01", "!!!!"), ("00", "!!!!")];
    vec![
        ("whole session", session_sheet(), session),
        ("1 and 0 in the next round", next(), vec![("?", "1??0"), ("1", "1??0")]),
        ("1 in the next round, and 1 or none", plain(1, &["60", "68"]), vec![("?", "1???"), ("0", "1???")]),
        ("the last round, or not", last(), vec![("?", "1??0"), ("?", "1??0")]),
        ("1 and 0 in the round before", before(), vec![("?", "1010"), ("?", "1??0"), ("1", "1??0"), ("?", "1100")]),
        ("now, and in the round before", plain(1, &["40", "50"]), vec![("?", "1?00"), ("?", "1???"), ("1", "11??")]),
        ("as before, and the new price", version_2(plain(1, &["40 50 05", "40"])), vec![("0", "1100"), ("?", "1??0")]),
        ("ever since and from now on", plain(1, &["40 59 03", "40 6A 03"]), vec![("1", "11??"), ("?", "1???")]),
        ("a trace without end", h(), vec![("?", "1010"), ("1", "!!!!"), ("?", "!!!!")]),
    ]
}

/// As many outputs as there can be, and as many inputs.
fn sets_of_many() -> Vec<Lines> {
    let every = "1???????????????????????????????????????????????????????????????\
                 ????????????????????????????????????????????????????????????????";
    vec![
        ("the input seven times", counts(1, 7, 255), vec![("?", every)]),
        ("two of six inputs", plain(6, &["44", "45"]), vec![("??????", "1???"), ("????10|????01", "1??0")]),
        ("the ends of six inputs", plain(6, &["40 45 03", "40 02 45 02 03"]), vec![("000000|111111", "1??0")]),
    ]
}

/// No further round: only pairs with the end are live. One: what follows may be the last round. Two: an
/// output reads the next round, and is now what no last round has.
pub fn preparations() -> Vec<Preparation> {
    let cases = vec![
        ("example k", plain(1, &["40"]), 12, 1),
        ("example k as the assumption", assuming(1, 0, &["40"]), 4, 1),
        ("example j", assuming(1, 0, &["00"]), 2, 0),
        ("no trace may end", assuming(1, 0, &["60 68 02 04"]), 2, 0),
        ("session sheet", session_sheet(), 44, 2),
        ("128 valuations, 64 of which satisfy", plain(6, &["40"]), 128 + 128 * 64, 1),
        ("256 valuations, 2 of which satisfy", counts(1, 7, 255), 256 + 256 * 2, 1),
        ("256 valuations, 64 of which satisfy", counts(6, 2, 255), 256 + 256 * 64, 1),
        ("all pairs of 4 valuations", plain(1, &["60"]), 4 * 5, 2),
        ("all pairs of 256 valuations", plain(6, &["60", "61"]), 65_792, 2),
        ("label and till are alike", version_2(plain(2, &["40 41 05"])), 8 + 8 * 4, 1),
        ("label and till are assumed alike", version_2(assuming(2, 0, &["40 41 05"])), 4 + 4 * 2, 1),
        ("a signal is alike with itself", version_2(plain(1, &["40 40 05"])), 4 + 4 * 2, 1),
        ("a signal is assumed alike with itself", version_2(assuming(1, 0, &["40 40 05"])), 2 + 2 * 2, 1),
        ("a signal is assumed alike with its negation", version_2(assuming(1, 0, &["40 40 02 05"])), 2, 0),
        ("assumed as one round earlier", version_2(assuming(1, 0, &["40 50 05"])), 2 + 2, 1),
        ("all pairs of 8 valuations", version_2(plain(2, &["60 61 05"])), 8 * 9, 2),
        // In a trace output 0 is always false, and so is output 1, which nothing has to wait for. After a
        // valuation that has output 0, the second valuation may have output 1, for which a third one is needed.
        ("further from pairs than from traces", plain(1, &["51", "41 60 03"]), 8 + 4 * 2 + 4 * 4, 2),
        ("a counter of 64 rounds", counter(), 2 * 64 + 2 * 64 * 2, 64),
    ];
    cases.into_iter().map(|(name, sheet, live, reach)| Preparation { name, sheet, live, reach }).collect()
}

/// Six outputs count the rounds before this one, output 0 lowest, and no trace may end unless all
/// are true: 64 rounds are the fewest.
pub fn counter() -> Vec<u8> {
    counter_to(6, 63)
}

/// The same with so many outputs, and traces that may end at one value alone.
pub fn counter_to(bits: usize, last: usize) -> Vec<u8> {
    let earlier = |output: usize| byte_of_read(1 + output, -1, false);
    let mut expressions = vec![bytes("59 02")];
    for output in 1..bits {
        let mut carry: Vec<u8> = (0..output).map(earlier).collect();
        carry.extend(vec![0x03; output - 1]);
        expressions.push(differs(&[earlier(output)], &carry));
    }
    let mut goes_on_or_ends = bytes("60 68 02 04");
    for output in 0..bits {
        goes_on_or_ends.push(byte_of_read(1 + output, 0, false));
        goes_on_or_ends.extend((last >> output & 1 == 0).then_some(0x02));
    }
    goes_on_or_ends.extend(vec![0x03; bits - 1]);
    goes_on_or_ends.push(0x04);
    expressions.push(goes_on_or_ends);
    write(1, bits as u8, &expressions)
}

/// Six inputs of two rounds make a shift register of 12 bits: the assumption moves input i to input
/// i + 1 two rounds on, and brings input 5 back to input 0, changed where input 0 was true one round
/// on. Only few contents may be the last ones, so that some are thousands of rounds from the end.
pub fn register() -> Vec<u8> {
    register_of(6)
}

/// The same with other numbers of inputs, two at least.
pub fn register_of(inputs: usize) -> Vec<u8> {
    let now = |stream: usize| byte_of_read(stream, 0, false);
    let follows = "60 68 02 04";
    let mut full: Vec<u8> = (0..inputs).map(now).collect();
    full.extend(vec![0x03; inputs - 1]);
    let back = differs(&[byte_of_read(inputs - 1, -1, false)], &[now(0)]);
    let feed = [bytes(follows), back, bytes("03"), bytes(follows), bytes("02"), full, bytes("02 03 04")].concat();
    let alike = |left: u8, right: u8| vec![left, right, 0x03, left, 0x02, right, 0x02, 0x03, 0x04];
    let mut moves = alike(0x60, now(inputs));
    for input in 1..inputs {
        moves.extend(alike(byte_of_read(input, 1, false), byte_of_read(input - 1, -1, false)));
        moves.push(0x03);
    }
    write(inputs as u8, 1, &[feed, moves])
}

/// An expression that is true for one letter alone.
pub fn only(inputs: usize, letter: usize) -> String {
    let read = |input: usize| format!("4{input}{}", if letter >> input & 1 == 1 { "" } else { " 02" });
    let reads: Vec<String> = (0..inputs).map(read).collect();
    reads.join(" ") + &" 03".repeat(inputs - 1)
}

/// Exclusive or of two expressions.
fn differs(left: &[u8], right: &[u8]) -> Vec<u8> {
    [left, right, &[0x02, 0x03], left, &[0x02], right, &[0x03, 0x04]].concat()
}

/// Lines that are malformed where there are two inputs, although they look like alternatives.
pub fn malformed_alternatives() -> Vec<&'static str> {
    let empty =
        ["|", "||", "|||", "00|", "|00", "00||11", "||00", "00||", "|00|11", "00|11|", "|00|", "||00|11", "00|11||01"];
    let lengths = ["0|1", "00|1", "0|11", "00|111", "001|11", "0|011", "0|0|11", "00|11|0", "0011", "0011|", "00|1101"];
    let dots = [".|", "|.", ".|.", ".|00", "00|.", "00|.|11", ".00|11", "00|11.", "00|1.", "..|00", "00|.."];
    let blanks = ["00 |11", "00| 11", " 00|11", "00|11 ", "00|1 ", "00| ", " |00", "00\t|11", "00|11\t", "00 | 11"];
    let returns = ["00|11\r", "00\r|11", "00|\r", "\r|00", "|\r", "00|1\r", ".\r|00"];
    let others = [
        "00|x1", "00|12", "00|1\0", "00|11x", "0x|11", "00/11", "00,11", "00¦11", "00\\11", "00}11", "00{11", "{}|00",
        "00|11|!!",
    ];
    [&empty[..], &lengths, &dots, &blanks, &returns, &others].concat()
}

/// Inputs with blank lines: first, last, alone, doubled, before and after a closing, with a last line feed
/// and without, and beside lines that only look blank.
pub fn blank_lines() -> Vec<SessionCase> {
    let one = plain(1, &["40"]);
    let mut cases = vec![
        (&one, "", ""),
        (&one, "\n", "?\n"),
        (&one, "\n\n", "?\n?\n"),
        (&one, "\n1", "?\n1\n"),
        (&one, "1\n\n", "1\n?\n"),
        (&one, "1\n\n\n0\n", "1\n?\n?\n0\n"),
        (&one, "\n.", "?\n=?\n# 0 0 0 1 0 0\n"),
        (&one, "\n.\n\n\n", "?\n=?\n# 0 0 0 1 0 0\n"),
        (&one, "\n\n.\n", "?\n?\n=?\n# 0 0 0 2 0 0\n"),
        (&one, "1\n\n.\n\n", "1\n?\n=?\n# 0 1 0 1 0 500\n"),
        (&one, "\n1\n.\n\n\n1\n", "?\n1\n=1\n# 0 1 0 1 0 500\nrefused 12 line 6\n"),
        (&one, "\n.\n\n.", "?\n=?\n# 0 0 0 1 0 0\nrefused 12 line 4\n"),
        (&one, "\n.\n\r\n", "?\n=?\n# 0 0 0 1 0 0\nrefused 12 line 3\n"),
        (&one, ".\n\n", "refused 14 line 1\n"),
        (&one, "\n\nx\n", "?\n?\nrefused 17 line 3\n"),
        (&one, "\n\r\n", "?\nrefused 17 line 2\n"),
        (&one, "\r\n\n", "refused 17 line 1\n"),
        (&one, " \n", "refused 17 line 1\n"),
        (&one, "\n|\n", "?\nrefused 17 line 2\n"),
        (&one, "\n0|\n", "?\nrefused 17 line 2\n"),
    ];
    // Whatever the inputs are: input 0 or not, input 0 and not.
    let settled = plain(1, &["40 40 02 04", "40 40 02 03", "40"]);
    cases.push((&settled, "\n\n", "10?\n10?\n"));
    let six = plain(6, &["45", "40 41 42 43 44 45 03 03 03 03 03"]);
    cases.push((&six, "\n111111\n", "??\n11\n"));
    let seven = plain(1, &["40"; 7]);
    cases.push((&seven, "\n\n0", "???????\n???????\n0000000\n"));
    // Input 0 one round earlier: the round that was slept through has its place.
    let before = plain(1, &["50"]);
    cases.push((&before, "1\n\n1\n0\n", "0\n1\n?\n1\n"));
    // Two rounds that were slept through need not be alike.
    let as_before = version_2(plain(1, &["40 50 05"]));
    cases.push((&as_before, "0\n\n\n", "1\n?\n?\n"));
    // The assumption: input 0 is what it was one round earlier, if there was one.
    let constant = version_2(assuming(1, 1, &["40", "40 50 05 40 58 05 04"]));
    cases.push((&constant, "\n1\n\n", "?1\n11\n11\n"));
    cases.push((&constant, "1\n\n0\n\n", "11\n11\n!!\n!!\n"));
    // The assumption: input 0 now or one round later.
    let ahead = assuming(1, 1, &["40", "40 60 04"]);
    cases.push((&ahead, "0\n\n.", "01\n11\n=11\n# 0 1 1 0 0 500\n# 1 2 0 0 0 1000\n"));
    cases.push((&ahead, "1\n\n.", "11\n?1\n=11\n# 0 1 0 1 0 500\n# 1 2 0 0 0 1000\n"));
    // Nothing keeps the assumption.
    let never = assuming(1, 0, &["00"]);
    cases.push((&never, "\n\n.\n\n", "!\n!\n=!\n# 0 0 0 0 2 0\n"));
    cases.into_iter().map(|(sheet, input, written)| SessionCase { sheet: sheet.clone(), input, written }).collect()
}

/// Storage and record as somebody may hand them in, with all storage bits 1 and junk beyond the
/// outputs counted.
pub fn forged(rounds: u32, closed: u32, counts: &[[u32; 4]]) -> Held {
    let mut held = Held {
        storage: vec![u64::MAX; STORAGE_WORDS],
        record: vec![0xDEAD_BEEF; RECORD_NUMBERS],
        answer: vec![7; ANSWER_NUMBERS],
    };
    held.forge(rounds, closed, counts);
    held
}

pub fn journal_refusals() -> Vec<JournalRefusal> {
    let groups = [
        record_refusals(),
        order_refusals(plain(1, &["40"])),
        order_refusals(version_2(plain(1, &["40 50 05"]))),
        faults_at_once(),
        faults_of_a_question(),
        set_refusals(),
        output_set_refusals(),
        length_refusals(),
        sheet_refusals(),
    ];
    let cases = groups.into_iter().flatten();
    cases.map(|(name, sheet, held, call, number)| JournalRefusal { name, sheet, held, call, number }).collect()
}

type Refused = (&'static str, Vec<u8>, Held, Call, u32);

/// The same number for a round, a question about a set of outputs, and a closing.
fn each(name: &'static str, sheet: Vec<u8>, held: Held, number: u32) -> Vec<Refused> {
    let calls = [round(0b11), Call::Together(0b1), Call::Close];
    calls.map(|call| (name, sheet.clone(), held.clone(), call, number)).to_vec()
}

/// Rule 18, and what it does not look at.
fn record_refusals() -> Vec<Refused> {
    let one =
        |name, rounds, closed, four, number| each(name, plain(1, &["40"]), forged(rounds, closed, &[four]), number);
    let half = 1 << 31;
    let (full, over) = (MAX_ROUNDS, MAX_ROUNDS + 1);
    let good = [1, 1, 1, 0];
    let two = || plain(1, &["40", "40"]);
    vec![
        one("rounds 1, counts 0", 1, 0, [0, 0, 0, 0], 18),
        one("rounds 0, a count 1", 0, 0, [0, 0, 0, 1], 18),
        one("counts one too many", 3, 0, [1, 1, 1, 1], 18),
        one("counts one too few", 3, 0, [0, 1, 1, 0], 18),
        one("counts add up", 3, 0, [0, 2, 0, 1], 0),
        one("two halves of 2^32", 0, 0, [half, half, 0, 0], 18),
        one("two other halves of 2^32", 0, 0, [0, 0, half, half], 18),
        one("four quarters of 2^32", 0, 0, [1 << 30; 4], 18),
        one("2^32 in two parts", 0, 0, [u32::MAX, 1, 0, 0], 18),
        one("2^32 and the rounds", 3, 0, [half, half, 1, 2], 18),
        one("2^32 and the rounds at once", 5, 0, [u32::MAX, 0, 0, 6], 18),
        one("twice 2^32", 0, 0, [u32::MAX, u32::MAX, 1, 1], 18),
        one("four times 2^32", 0, 0, [u32::MAX, u32::MAX, u32::MAX, 3], 18),
        one("1,000,001 rounds", over, 0, [over, 0, 0, 0], 18),
        one("1,000,001 rounds and closed", over, 1, [0, over, 0, 0], 18),
        one("2^32 - 1 rounds", u32::MAX, 0, [u32::MAX, 0, 0, 0], 18),
        one("1,000,001 rounds, counts 1,000,000", over, 0, [full, 0, 0, 0], 18),
        one("1,000,000 rounds, counts 1,000,001", full, 0, [full, 1, 0, 0], 18),
        one("closed is 2", 3, 2, good, 18),
        one("closed is 256", 3, 256, good, 18),
        one("closed is 257", 3, 257, good, 18),
        one("closed is 65,536", 3, 1 << 16, good, 18),
        one("closed is 2^32 - 1", 3, u32::MAX, good, 18),
        each("second output's counts", two(), forged(3, 0, &[good, [0; 4]]), 18),
        each("first output's counts", two(), forged(3, 0, &[[0; 4], good]), 18),
        each("sums of both together", two(), forged(3, 0, &[[1, 1, 0, 0], [1, 1, 1, 1]]), 18),
        each("both outputs' counts", two(), forged(3, 0, &[good, [0, 0, 3, 0]]), 0),
        each(
            "the last of seven",
            counts(1, 7, 255),
            forged(3, 0, &[good, good, good, good, good, good, [3, 1, 0, 0]]),
            18,
        ),
        each("all seven", counts(1, 7, 255), forged(3, 0, &[good; 7]), 0),
        each("junk after the third", plain(1, &["40", "40", "40"]), forged(3, 0, &[good; 3]), 0),
    ]
    .concat()
}

/// What comes first with an accepted sheet of one input and one output: 15, 18, 12, then 21 and 13, or
/// 14, or 24 and 14.
fn order_refusals(sheet: Vec<u8>) -> Vec<Refused> {
    let sheet = || sheet.clone();
    let short = |mut held: Held| {
        held.storage.pop();
        held
    };
    let (open, closed) = (|| forged(1, 0, &[[1, 0, 0, 0]]), || forged(1, 1, &[[1, 0, 0, 0]]));
    let full = |closed| forged(MAX_ROUNDS, closed, &[[MAX_ROUNDS - 7, 3, 3, 1]]);
    let wrong = |closed| forged(1, closed, &[[0; 4]]);
    let empty = |closed| forged(0, closed, &[[0; 4]]);
    let (good, none, beyond) = (round(0b10), round(0), round(0b110));
    let (asked, asked_beyond) = (Call::Together(0b1), Call::Together(0b11));
    vec![
        ("preparation, 3,083 numbers", sheet(), short(open()), Call::Prepare, 15),
        ("preparation, 3,083 numbers and a wrong record", sheet(), short(wrong(1)), Call::Prepare, 15),
        ("preparation with a wrong record", sheet(), wrong(9), Call::Prepare, 0),
        ("preparation with a closed record", sheet(), closed(), Call::Prepare, 0),
        ("preparation with 1,000,000 rounds", sheet(), full(1), Call::Prepare, 0),
        ("round, 3,083 numbers", sheet(), short(open()), good, 15),
        ("closing, 3,083 numbers", sheet(), short(open()), Call::Close, 15),
        ("round, 3,083 numbers and wrong sums", sheet(), short(wrong(0)), good, 15),
        ("closing, 3,083 numbers and wrong sums", sheet(), short(wrong(0)), Call::Close, 15),
        ("round, 3,083 numbers, closed, bad set", sheet(), short(closed()), beyond, 15),
        ("closing, 3,083 numbers and no round", sheet(), short(empty(0)), Call::Close, 15),
        ("round, wrong sums and closed", sheet(), wrong(1), good, 18),
        ("closing, wrong sums and closed", sheet(), wrong(1), Call::Close, 18),
        ("round, wrong sums and a bad set", sheet(), wrong(0), beyond, 18),
        ("round after closing", sheet(), closed(), good, 12),
        ("closing after closing", sheet(), closed(), Call::Close, 12),
        ("round after closing, letter beyond", sheet(), closed(), beyond, 12),
        ("round after closing, no letter", sheet(), closed(), none, 12),
        ("round after closing, 1,000,000 rounds", sheet(), full(1), good, 12),
        ("closing, closed and without a round", sheet(), empty(1), Call::Close, 12),
        ("round, closed and without a round", sheet(), empty(1), good, 12),
        ("1,000,000 rounds and a letter beyond", sheet(), full(0), beyond, 21),
        ("1,000,000 rounds and no letter", sheet(), full(0), none, 21),
        ("1,000,000 rounds and one more", sheet(), full(0), good, 13),
        ("1,000,000 rounds closed", sheet(), full(0), Call::Close, 0),
        ("closing with no round", sheet(), empty(0), Call::Close, 14),
        ("first round", sheet(), empty(0), good, 0),
        ("question, 3,083 numbers", sheet(), short(open()), asked, 15),
        ("question, 3,083 numbers and wrong sums", sheet(), short(wrong(0)), asked, 15),
        ("question, 3,083 numbers, closed, bad set", sheet(), short(closed()), asked_beyond, 15),
        ("question, 3,083 numbers and no round", sheet(), short(empty(0)), asked, 15),
        ("question, wrong sums and closed", sheet(), wrong(1), asked, 18),
        ("question, wrong sums and a bad set", sheet(), wrong(0), asked_beyond, 18),
        ("question after closing", sheet(), closed(), asked, 12),
        ("question after closing, bad set", sheet(), closed(), asked_beyond, 12),
        ("question, closed and without a round", sheet(), empty(1), asked, 12),
        ("question, closed and without a round, bad set", sheet(), empty(1), asked_beyond, 12),
        ("question after closing, 1,000,000 rounds", sheet(), full(1), asked, 12),
        ("question about output 1 of one", sheet(), open(), asked_beyond, 24),
        ("question about output 1 of one, no round", sheet(), empty(0), asked_beyond, 24),
        ("question with no round", sheet(), empty(0), asked, 14),
        ("question about no output, no round", sheet(), empty(0), Call::Together(0), 14),
        ("question after one round", sheet(), open(), asked, 0),
        ("question about no output", sheet(), open(), Call::Together(0), 0),
        ("question, 1,000,000 rounds", sheet(), full(0), asked, 0),
    ]
}

/// What a round is refused for, in the order in which it is checked. 10 stands for all rules of a sheet.
const ROUND_FAULTS: [u32; 7] = [WRONG_SIZES, 10, 15, 18, 12, 21, 13];

/// A round with any choice of these faults at once, of which the first decides. Several sets break rule 21.
fn faults_at_once() -> Vec<Refused> {
    let mut cases = Vec::new();
    for choice in 0..1 << ROUND_FAULTS.len() {
        let chosen = (0..ROUND_FAULTS.len()).filter(|place| choice >> place & 1 == 1);
        let faults: Vec<u32> = chosen.map(|place| ROUND_FAULTS[place]).collect();
        let has = |number: u32| faults.contains(&number);
        let rounds = if has(13) { MAX_ROUNDS } else { 5 };
        let mut held = forged(rounds, has(12) as u32, &[[rounds - 2, 1, 1, has(18) as u32]]);
        held.record.truncate(RECORD_NUMBERS - has(WRONG_SIZES) as usize);
        held.storage.truncate(STORAGE_WORDS - has(15) as usize);
        let sheet = plain(2, &[if has(10) { "42" } else { "40" }]);
        let number = faults.first().copied().unwrap_or(0);
        let sets: &[u64] = if has(21) { &[0, 1 << 4, 1 << 63, 0b1_1001] } else { &[0b1001] };
        let calls = sets.iter().map(|&set| round(set));
        cases.extend(calls.map(|call| ("several faults at once", sheet.clone(), held.clone(), call, number)));
    }
    cases
}

/// The same for a question about a set of outputs.
const QUESTION_FAULTS: [u32; 7] = [WRONG_SIZES, 10, 15, 18, 12, 24, 14];

/// A question with any choice of these faults at once, of which the first decides. Several records break rule
/// 18, and several sets rule 24.
fn faults_of_a_question() -> Vec<Refused> {
    let mut cases = Vec::new();
    for choice in 0..1 << QUESTION_FAULTS.len() {
        let chosen = (0..QUESTION_FAULTS.len()).filter(|place| choice >> place & 1 == 1);
        let faults: Vec<u32> = chosen.map(|place| QUESTION_FAULTS[place]).collect();
        let has = |number: u32| faults.contains(&number);
        let (rounds, closed) = (if has(14) { 0 } else { 5 }, has(12) as u32);
        let records = match has(18) {
            false => vec![(closed, [0, rounds, 0, 0])],
            // One too many, 2^32 too many, and marks that are neither of the two.
            true => vec![
                (closed, [0, rounds, 0, 1]),
                (closed, [1 << 31, rounds, 1 << 31, 0]),
                (2, [0, rounds, 0, 0]),
                (u32::MAX, [0, rounds, 0, 0]),
            ],
        };
        let sheet = plain(2, &["40", if has(10) { "43" } else { "41" }]);
        let number = faults.first().copied().unwrap_or(0);
        let sets: &[u8] = if has(24) { &[0b100, 0b111, 0x80, 0xFF] } else { &[0, 0b10, 0b11] };
        for (mark, four) in records {
            let mut held = forged(rounds, mark, &[[rounds, 0, 0, 0], four]);
            held.record.truncate(RECORD_NUMBERS - has(WRONG_SIZES) as usize);
            held.storage.truncate(STORAGE_WORDS - has(15) as usize);
            let calls = sets.iter().map(|&set| Call::Together(set));
            cases.extend(calls.map(|call| ("several faults at once", sheet.clone(), held.clone(), call, number)));
        }
    }
    cases
}

fn set_refusals() -> Vec<Refused> {
    let one = |name, set, number| (name, plain(1, &["40"]), forged(0, 0, &[[0; 4]]), round(set), number);
    let five = |name, set, number| {
        (name, plain(5, &["40", "41"]), forged(2, 0, &[[1, 1, 0, 0], [0, 0, 2, 0]]), round(set), number)
    };
    let six = |name, set, number| {
        (name, plain(6, &["40", "41"]), forged(2, 0, &[[1, 1, 0, 0], [0, 0, 2, 0]]), round(set), number)
    };
    vec![
        one("no letter of one input", 0, 21),
        one("letter 0", 0b01, 0),
        one("letter 1", 0b10, 0),
        one("both letters", 0b11, 0),
        one("letter 2 of one input", 0b100, 21),
        one("both letters, and letter 2", 0b111, 21),
        one("letter 1, and letter 32", 1 << 32 | 0b10, 21),
        one("letter 1, and letter 33", 1 << 33 | 0b10, 21),
        one("letter 63 of one input", 1 << 63, 21),
        one("all numbers of letters", u64::MAX, 21),
        five("no letter of five inputs", 0, 21),
        five("letter 31", 1 << 31, 0),
        five("letter 32 of five inputs", 1 << 32, 21),
        five("letters 0 and 31", 1 << 31 | 1, 0),
        five("every letter of five inputs", 0xFFFF_FFFF, 0),
        five("every letter of five inputs, and letter 32", 0x1_FFFF_FFFF, 21),
        five("letter 0, and letter 63 of five inputs", 1 << 63 | 1, 21),
        six("no letter of six inputs", 0, 21),
        six("letter 0 of six inputs", 1, 0),
        six("letter 32 of six inputs", 1 << 32, 0),
        six("letter 63 of six inputs", 1 << 63, 0),
        six("every letter of six inputs", u64::MAX, 0),
    ]
}

/// Rule 24 for each number of outputs: a set may name those below it, and none at or beyond it.
fn output_set_refusals() -> Vec<Refused> {
    let mut cases = Vec::new();
    for outputs in 1..=7 {
        let mut case = |name, set: u8, number| {
            let held = forged(1, 0, &[[0, 0, 1, 0]; 7][..outputs as usize]);
            cases.push((name, counts(1, outputs, 255), held, Call::Together(set), number));
        };
        let every = 0x7F >> (7 - outputs);
        case("no output", 0, 0);
        case("every output", every, 0);
        case("every bit", 0xFF, 24);
        for k in 0..8 {
            let number = if k < outputs { 0 } else { 24 };
            case("one bit", 1 << k, number);
            case("one bit, and every output", 1 << k | every, number);
        }
    }
    cases
}

fn length_refusals() -> Vec<Refused> {
    let lengths = [
        ("record of 29 numbers", 29, 16),
        ("record of 31 numbers", 31, 16),
        ("no record", 0, 16),
        ("answer of 15 numbers", 30, 15),
        ("no answer", 30, 0),
        ("neither", 0, 0),
    ];
    let mut cases = Vec::new();
    for (name, record, answer) in lengths {
        for call in [Call::Prepare, round(0b10), Call::Together(0b1), Call::Together(0xFF), Call::Close] {
            let mut held = forged(1, 0, &[[1, 0, 0, 0]]);
            held.record.resize(record, 0);
            held.answer.resize(answer, 0);
            cases.push((name, plain(1, &["40"]), held, call, WRONG_SIZES));
        }
    }
    cases
}

/// A refused sheet comes before everything else.
fn sheet_refusals() -> Vec<Refused> {
    let mut cases = Vec::new();
    for case in sheets().into_iter().filter(|case| case.number != 0) {
        let full = forged(1, 1, &[[1, 1, 0, 0]; 7]);
        let none = Held { storage: vec![], ..full.clone() };
        for held in [full, none] {
            for call in [Call::Prepare, round(0), round(1), Call::Together(0), Call::Together(0xFF), Call::Close] {
                cases.push((case.name, case.sheet.clone(), held.clone(), call, case.number));
            }
        }
    }
    cases
}

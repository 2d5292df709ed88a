//! Calls of the proved library. Only the comparing tests use these, so only they need the archive.

use crate::journal::{Call, Held};
use std::fmt::Debug;

pub use jigwaret::raw::{check, close, evaluate, letters, prepare, round, together};

/// Numbers kept on each side of what is lent, which must stay as they were.
const MARGIN: usize = 8;

fn surround<T: Copy>(contents: &[T], mark: T) -> Vec<T> {
    [&[mark; MARGIN], contents, &[mark; MARGIN]].concat()
}

fn inside<T>(memory: &mut [T]) -> &mut [T] {
    let end = memory.len() - MARGIN;
    &mut memory[MARGIN..end]
}

/// Takes the contents back out of a memory whose margins are checked.
fn take_out<T: Copy + PartialEq + Debug>(memory: &[T], mark: T, contents: &mut [T]) {
    let (before, rest) = memory.split_at(MARGIN);
    let (middle, after) = rest.split_at(contents.len());
    assert_eq!([before, after], [[mark; MARGIN]; 2], "numbers around what was lent");
    contents.copy_from_slice(middle);
}

/// Makes a call and returns its number. What is lent lies between numbers that stay as they were.
pub fn call(sheet: &[u8], held: &mut Held, call: Call) -> u32 {
    let (word, number) = (0xA5A5_5A5A_C3C3_3C3C, 0x5AA5_C33C);
    let mut storage = surround(&held.storage, word);
    let mut record = surround(&held.record, number);
    let mut answer = surround(&held.answer, number);
    let lent = (inside(&mut storage), inside(&mut record), inside(&mut answer));
    let returned = match call {
        Call::Prepare => prepare(sheet, lent.0, lent.1, lent.2),
        Call::Round(letters) => round(sheet, lent.0, lent.1, letters.0, lent.2),
        Call::Together(outputs) => together(sheet, lent.0, lent.1, outputs, lent.2),
        Call::Close => close(sheet, lent.0, lent.1, lent.2),
    };
    take_out(&storage, word, &mut held.storage);
    take_out(&record, number, &mut held.record);
    take_out(&answer, number, &mut held.answer);
    returned
}

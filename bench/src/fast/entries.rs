//! The entries, in two ways: with the sheet's bytes at each call, as the library takes them, and with
//! a sheet that was read once.

use super::letters::{all_letters, of_masks};
use super::sets::{clear_rows, count, ends, find_live, firsts, set_verdict, step, verdicts, Set};
use super::sheet::Sheet;

pub const STORAGE_WORDS: usize = 3 * SET_WORDS;
const SET_WORDS: usize = 1028;
const MAX_ROUNDS: u32 = 1_000_000;
const WRONG_SIZES: u32 = 255;

pub fn prepare(bytes: &[u8], storage: &mut [u64], record: &mut [u32], answer: &mut [u32]) -> u32 {
    number(try_prepare(bytes, storage, record, answer))
}

pub fn round(bytes: &[u8], storage: &mut [u64], record: &mut [u32], letters: u64, answer: &mut [u32]) -> u32 {
    number(try_round(bytes, storage, record, letters, answer))
}

pub fn together(bytes: &[u8], storage: &[u64], record: &[u32], outputs: u8, answer: &mut [u32]) -> u32 {
    number(try_together(bytes, storage, record, outputs, answer))
}

pub fn close(bytes: &[u8], storage: &[u64], record: &mut [u32], answer: &mut [u32]) -> u32 {
    number(try_close(bytes, storage, record, answer))
}

/// Writes the set that the masks make.
pub fn letters(inputs: u8, known: u8, value: u8, letters: &mut u64) -> u32 {
    if !(1..=6).contains(&inputs) {
        return 4;
    }
    if known >> inputs != 0 || value & !known != 0 {
        return 11;
    }
    *letters = of_masks(inputs, known, value);
    0
}

fn number(outcome: Result<(), u32>) -> u32 {
    outcome.err().unwrap_or(0)
}

fn try_prepare(bytes: &[u8], storage: &mut [u64], record: &mut [u32], answer: &mut [u32]) -> Result<(), u32> {
    check_lengths(record, answer)?;
    let sheet = Sheet::accept(bytes)?;
    let [live, reached, scratch] = sets(storage)?;
    live.fill(0);
    reached.fill(0);
    scratch.fill(0);
    let reach = find_live(&sheet, live, reached, scratch);
    record.fill(0);
    answer[0] = count(live);
    answer[1] = reach as u32;
    Ok(())
}

fn try_round(
    bytes: &[u8],
    storage: &mut [u64],
    record: &mut [u32],
    letters: u64,
    answer: &mut [u32],
) -> Result<(), u32> {
    check_lengths(record, answer)?;
    let sheet = Sheet::accept(bytes)?;
    let [live, reached, scratch] = sets(storage)?;
    check_record(&sheet, record)?;
    check_round(&sheet, record, letters)?;
    // Nothing is known of what was found.
    clear_rows(scratch, sheet.size());
    let firsts = step(&sheet, live, reached, scratch, record[0] == 0, letters);
    let found = verdicts(&sheet, firsts);
    tally(record, &found[..sheet.outputs]);
    (0..sheet.outputs).for_each(|k| answer[k] = found[k] as u32);
    Ok(())
}

fn try_together(bytes: &[u8], storage: &[u64], record: &[u32], outputs: u8, answer: &mut [u32]) -> Result<(), u32> {
    check_lengths(record, answer)?;
    let sheet = Sheet::accept(bytes)?;
    let reached = reached_set(storage)?;
    check_record(&sheet, record)?;
    check_question(&sheet, record, outputs)?;
    answer[0] = set_verdict(&sheet, firsts(&sheet, reached), outputs) as u32;
    Ok(())
}

fn try_close(bytes: &[u8], storage: &[u64], record: &mut [u32], answer: &mut [u32]) -> Result<(), u32> {
    check_lengths(record, answer)?;
    let sheet = Sheet::accept(bytes)?;
    let reached = reached_set(storage)?;
    check_record(&sheet, record)?;
    check_rounds(record)?;
    record[1] = 1;
    let found = verdicts(&sheet, ends(&sheet, reached));
    for k in 0..sheet.outputs {
        answer[k] = found[k] as u32;
        answer[sheet.outputs + k] = share(record, k);
    }
    Ok(())
}

/// A journal of a sheet that is read once.
#[derive(Clone)]
pub struct Journal<'a> {
    pub sheet: Sheet<'a>,
    sets: Box<[Set; 3]>,
    /// Rounds, closed, and four counts for each output.
    pub record: [u32; 30],
    pub live_pairs: u32,
    /// The number of the last layer of preparation.
    pub reach: usize,
}

impl<'a> Journal<'a> {
    pub fn prepare(sheet: Sheet<'a>) -> Journal<'a> {
        let mut sets = Box::new([[0; SET_WORDS]; 3]);
        let [live, reached, scratch] = &mut *sets;
        let reach = find_live(&sheet, live, reached, scratch);
        let live_pairs = count(live);
        Journal { sheet, sets, record: [0; 30], live_pairs, reach }
    }

    /// The verdicts by their numbers, or the number of the refusal.
    pub fn round(&mut self, letters: u64) -> Result<[u8; 7], u32> {
        if self.record[1] == 1 {
            return Err(12);
        }
        check_round(&self.sheet, &self.record, letters)?;
        let [live, reached, scratch] = &mut *self.sets;
        let firsts = step(&self.sheet, live, reached, scratch, self.record[0] == 0, letters);
        let found = verdicts(&self.sheet, firsts);
        tally(&mut self.record, &found[..self.sheet.outputs]);
        Ok(found)
    }

    /// The verdict on a set of outputs by its number, or the number of the refusal.
    pub fn together(&self, outputs: u8) -> Result<u8, u32> {
        if self.record[1] == 1 {
            return Err(12);
        }
        check_question(&self.sheet, &self.record, outputs)?;
        Ok(set_verdict(&self.sheet, firsts(&self.sheet, &self.sets[1]), outputs))
    }

    /// The verdicts and the shares, or the number of the refusal.
    pub fn close(&mut self) -> Result<([u8; 7], [u32; 7]), u32> {
        if self.record[1] == 1 {
            return Err(12);
        }
        check_rounds(&self.record)?;
        self.record[1] = 1;
        let mut shares = [0; 7];
        (0..self.sheet.outputs).for_each(|k| shares[k] = share(&self.record, k));
        Ok((verdicts(&self.sheet, ends(&self.sheet, &self.sets[1])), shares))
    }
}

/// The three sets of the storage: live, reached, scratch. Rule 15.
fn sets(storage: &mut [u64]) -> Result<[&mut Set; 3], u32> {
    let (live, rest) = storage.split_first_chunk_mut().ok_or(15u32)?;
    let (reached, rest) = rest.split_first_chunk_mut().ok_or(15u32)?;
    let (scratch, _) = rest.split_first_chunk_mut().ok_or(15u32)?;
    Ok([live, reached, scratch])
}

/// The reached set of the storage. Rule 15.
fn reached_set(storage: &[u64]) -> Result<&Set, u32> {
    if storage.len() < STORAGE_WORDS {
        return Err(15);
    }
    Ok(storage[SET_WORDS..].first_chunk().expect("the storage is long enough"))
}

fn check_lengths(record: &[u32], answer: &[u32]) -> Result<(), u32> {
    if record.len() != 30 || answer.len() < 16 {
        return Err(WRONG_SIZES);
    }
    Ok(())
}

/// Rules 18 and 12.
fn check_record(sheet: &Sheet, record: &[u32]) -> Result<(), u32> {
    let (rounds, closed) = (record[0], record[1]);
    let mut counts = record[2..].chunks_exact(4).take(sheet.outputs);
    let add_up = |four: &[u32]| four.iter().map(|&count| count as u64).sum::<u64>() == rounds as u64;
    if rounds > MAX_ROUNDS || closed > 1 || !counts.all(add_up) {
        return Err(18);
    }
    if closed == 1 {
        return Err(12);
    }
    Ok(())
}

/// Rules 21 and 13.
fn check_round(sheet: &Sheet, record: &[u32], letters: u64) -> Result<(), u32> {
    if letters == 0 || letters > all_letters(sheet.inputs) {
        return Err(21);
    }
    if record[0] == MAX_ROUNDS {
        return Err(13);
    }
    Ok(())
}

/// Rules 24 and 14.
fn check_question(sheet: &Sheet, record: &[u32], outputs: u8) -> Result<(), u32> {
    if outputs >> sheet.outputs != 0 {
        return Err(24);
    }
    check_rounds(record)
}

/// Rule 14.
fn check_rounds(record: &[u32]) -> Result<(), u32> {
    if record[0] == 0 {
        return Err(14);
    }
    Ok(())
}

/// Counts a round and its verdicts; the counts of an output stand in the order true, false, open,
/// broken.
fn tally(record: &mut [u32], verdicts: &[u8]) {
    record[0] += 1;
    for (k, &verdict) in verdicts.iter().enumerate() {
        record[2 + 4 * k + [1, 0, 2, 3][verdict as usize]] += 1;
    }
}

/// True rounds per thousand, to the nearest, halves to the even number.
fn share(record: &[u32], k: usize) -> u32 {
    let (rounds, scaled) = (record[0] as u64, 1000 * record[2 + 4 * k] as u64);
    let (below, rest) = (scaled / rounds, scaled % rounds);
    let odd = below % 2;
    (below + (2 * rest + odd > rounds) as u64) as u32
}

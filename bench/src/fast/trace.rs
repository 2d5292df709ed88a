//! Whole traces: the outputs' values in an order in which a value comes after those it reads.

use super::lanes::{reads, value};
use super::sheet::Sheet;

const MAX_LETTERS: usize = 4096;

/// The largest lead of an output whose walks along reads are bounded: six reads ahead.
const LARGEST_LEAD: usize = 54;
const UNBOUNDED: usize = 63;

/// Writes for each letter the byte whose bit k is output k.
pub fn evaluate(bytes: &[u8], letters: &[u8], out: &mut [u8]) -> u32 {
    let sheet = match Sheet::accept(bytes) {
        Ok(sheet) => sheet,
        Err(number) => return number,
    };
    let rounds = letters.len();
    if rounds == 0 || rounds > MAX_LETTERS || out.len() < rounds {
        return 16;
    }
    if letters.iter().any(|letter| letter >> sheet.inputs != 0) {
        return 11;
    }
    let valuations = &mut [0; MAX_LETTERS][..rounds];
    valuations.copy_from_slice(letters);
    let mut settled = 0;
    while settled != (1 << sheet.outputs) - 1 {
        for up in [true, false] {
            let lead = leads(&sheet, up, settled);
            sweep(&sheet, &lead, up, valuations);
            (0..sheet.outputs).filter(|&s| lead[s] <= LARGEST_LEAD).for_each(|s| settled |= 1 << s);
        }
    }
    out.iter_mut().zip(valuations).for_each(|(byte, valuation)| *byte = *valuation >> sheet.inputs);
    0
}

/// Output s in round t, counted in the sweep's direction, has the key 8 t + lead[s], and keys fall
/// along reads of outputs that are not settled: a read of the next round weighs 9, of this round 1,
/// of the round before -7. Settled outputs, and those that no key fits, are unbounded.
fn leads(sheet: &Sheet, up: bool, settled: usize) -> [usize; 7] {
    let is_settled = |s: usize| settled >> s & 1 == 1;
    let next = if up { 4 } else { 1 };
    let mut lead: [usize; 7] = std::array::from_fn(|s| if is_settled(s) { UNBOUNDED } else { 0 });
    loop {
        let before = lead;
        for s in (0..sheet.outputs).filter(|&s| !is_settled(s)) {
            for q in (0..sheet.outputs).filter(|&q| !is_settled(q)) {
                let raised = match sheet.output_reads[s][q] {
                    0 => 0,
                    _ if lead[q] > LARGEST_LEAD => UNBOUNDED,
                    offsets if offsets & next != 0 => lead[q] + 9,
                    offsets if offsets & 2 != 0 => lead[q] + 1,
                    _ => lead[q].saturating_sub(7),
                };
                lead[s] = lead[s].max(raised);
            }
        }
        if lead == before {
            return lead;
        }
    }
}

/// Works out the outputs with bounded leads in the order of their keys.
fn sweep(sheet: &Sheet, lead: &[usize; 7], up: bool, valuations: &mut [u8]) {
    let rounds = valuations.len();
    let mut order: Vec<usize> = (0..sheet.outputs).filter(|&s| lead[s] <= LARGEST_LEAD).collect();
    order.sort_by_key(|&s| lead[s] % 8);
    for block in 0..rounds + LARGEST_LEAD / 8 {
        for &s in &order {
            let step = block.wrapping_sub(lead[s] / 8);
            if step < rounds {
                let t = if up { step } else { rounds - 1 - step };
                let earlier = t.checked_sub(1).map(|t| valuations[t] as usize);
                let later = valuations.get(t + 1).map(|&valuation| valuation as usize);
                let found = value(sheet.expressions()[s], reads(valuations[t] as usize, earlier, later));
                valuations[t] |= (found as u8) << (sheet.inputs + s);
            }
        }
    }
}

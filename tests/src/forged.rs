//! Storage and records as somebody may hand them in, from a fixed start.

use crate::journal::{Held, MAX_ROUNDS, STORAGE_WORDS};
use crate::random::Random;

/// Storage, a record and an answer with anything in them, long enough.
pub fn anything(random: &mut Random) -> Held {
    let mut held = Held {
        storage: vec![0; STORAGE_WORDS + random.pick(&[0, 0, 0, 1, 300])],
        record: numbers(random, 30),
        answer: vec![],
    };
    fill(random, &mut held.storage);
    let room = random.range(16, 20);
    held.answer = numbers(random, room);
    held
}

fn numbers(random: &mut Random, count: usize) -> Vec<u32> {
    let mut words = vec![0; count];
    random.fill(&mut words);
    words.iter().map(|word| *word as u32).collect()
}

/// Fills storage with ones, zeros, or a mixture that has about as many, fewer or more ones.
fn fill(random: &mut Random, storage: &mut [u64]) {
    let mut second = vec![0; storage.len()];
    random.fill(storage);
    random.fill(&mut second);
    let join = random.pick(&[
        |_: u64, _: u64| 0,
        |_: u64, _: u64| u64::MAX,
        |left: u64, _: u64| left,
        |left: u64, right: u64| left & right & left.rotate_left(7) & right.rotate_left(11),
        |left: u64, right: u64| left | right | left.rotate_left(7),
    ]);
    storage.iter_mut().zip(second).for_each(|(word, other)| *word = join(*word, other));
}

/// Makes the counts of all outputs add up to the rounds.
pub fn consistent(random: &mut Random, held: &mut Held, rounds: u32, outputs: usize) {
    let counts: Vec<[u32; 4]> = (0..outputs)
        .map(|_| {
            let mut four = [0; 4];
            let mut left = rounds;
            for count in &mut four[..3] {
                *count = random.below(left as usize + 1) as u32;
                left -= *count;
            }
            four[3] = left;
            four.rotate_left(random.below(4));
            four
        })
        .collect();
    held.forge(rounds, 0, &counts);
}

/// Makes the record consistent, or spoils one thing about it.
pub fn record(random: &mut Random, held: &mut Held, outputs: usize) {
    let any = random.below(MAX_ROUNDS as usize + 1) as u32;
    let rounds = random.pick(&[0, 0, 1, 1, 2, 7, any, MAX_ROUNDS - 1, MAX_ROUNDS, MAX_ROUNDS]);
    consistent(random, held, rounds, outputs);
    held.record[1] = random.one_in(6) as u32;
    let count = 2 + 4 * random.below(outputs) + random.below(4);
    match random.below(24) {
        0 => held.record[count] = held.record[count].wrapping_add(1),
        1 => held.record[count] = held.record[count].wrapping_sub(1),
        2 => held.record[count] ^= 1 << random.below(32),
        3 => held.record[1] = random.pick(&[2, 3, 256, 257, u32::MAX]),
        4 => held.record[0] = held.record[0].wrapping_add(1),
        5 => {
            held.record[0] += MAX_ROUNDS + 1 - rounds;
            (0..outputs).for_each(|k| held.record[2 + 4 * k] += MAX_ROUNDS + 1 - rounds);
        }
        6 => {
            // The sum passes 2^32 and looks right in 32 bits.
            let other = 2 + (count - 2) / 4 * 4 + (count - 1) % 4;
            held.record[count] = held.record[count].wrapping_add(1 << 31);
            held.record[other] = held.record[other].wrapping_add(1 << 31);
        }
        _ => {}
    }
}

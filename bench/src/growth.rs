//! How the cost of the proved library grows with one thing at a time.

use crate::measure::{ProvedTimes, Subject};
use crate::timing::Effort;
use crate::workloads::{dense, session_lines, Unheard, Workload};
use jigwaret::raw;
use outside::cases::session_sheet;
use outside::journal::{call_of_line, Call, Held};
use outside::letters::LetterSet;
use outside::random::Random;
use outside::sheet::{byte_of_read, write, NO_ASSUMPTION};

/// How much there is of the thing that grows, and what it costs.
pub struct Cost {
    pub amount: usize,
    pub times: ProvedTimes,
}

/// Expressions of so many bytes, each of two reads and negations. Each reads an input one round
/// earlier and another one round later.
fn padded(inputs: usize, outputs: usize, length: usize) -> Vec<u8> {
    let expression = |output: usize| {
        let earlier = byte_of_read(output % inputs, -1, false);
        let later = byte_of_read((output + 1) % inputs, 1, true);
        let mut bytes = vec![earlier, later, 0x03];
        bytes.resize(length, 0x02);
        bytes
    };
    let expressions: Vec<Vec<u8>> = (0..outputs).map(expression).collect();
    write(inputs as u8, NO_ASSUMPTION, &expressions)
}

fn workload(sheet: Vec<u8>) -> Workload {
    Workload { name: "growth", sheet, rounds: 12 }
}

/// With nothing heard.
fn cost(amount: usize, sheet: Vec<u8>) -> Cost {
    Cost { amount, times: Subject::new(&workload(sheet)).proved(Effort::FULL, Unheard::Share(100)) }
}

/// By the number of streams, half of them inputs, with expressions of 15 bytes and nothing heard.
pub fn by_streams() -> Vec<Cost> {
    (2..=8usize).map(|streams| cost(streams, padded(streams.div_ceil(2), streams / 2, 15))).collect()
}

/// By the bytes of an expression: the same values, with negations that cancel out.
pub fn by_length() -> Vec<Cost> {
    [3, 7, 15, 31, 63].map(|length| cost(length, padded(4, 3, length))).into()
}

/// By the share of inputs that were not heard, and so by the pairs reached.
pub fn by_unheard() -> Vec<Cost> {
    let workload = workload(dense(4, 4));
    let subject = Subject::new(&workload);
    let cost = |share| Cost { amount: share, times: subject.proved(Effort::FULL, Unheard::Share(share)) };
    [0, 10, 30, 60, 100].map(cost).into()
}

/// How many rounds are timed at once.
const STRETCH: usize = 500;

/// By the rounds that a journal holds: seconds of a round after so many others.
pub fn by_rounds() -> Vec<(usize, f64)> {
    let sheet = session_sheet();
    let lines = session_lines(&mut Random::new(3), STRETCH, Unheard::Share(30), 0);
    let calls: Vec<Call> = lines.lines().map(call_of_line).collect();
    let play = |held: &mut Held| {
        for call in &calls {
            if let Call::Round(LetterSet(letters)) = call {
                let Held { storage, record, answer } = &mut *held;
                assert_eq!(raw::round(&sheet, storage, record, *letters, answer), 0);
            }
        }
    };
    let mut held = Held::fresh();
    assert_eq!(raw::prepare(&sheet, &mut held.storage, &mut held.record, &mut held.answer), 0);
    let seconds = |before: usize| {
        while (held.record[0] as usize) < before {
            play(&mut held);
        }
        let [time] = Effort::FULL.shortest([&mut || play(&mut held.clone())]);
        (before, time / STRETCH as f64)
    };
    [0, 10_000, 100_000, 999_000].map(seconds).into()
}

//! Evaluation takes time in proportion to the trace, also where reads turn back at each step. Alone
//! in its file, so that no other test runs beside it.

use outside::random::{self, Random};
use outside::{circular, hex, library};
use std::time::{Duration, Instant};

/// Four times the rounds may take this many times as long. Work that grows with the square of the
/// rounds takes 16 times as long.
const MOST: f64 = 6.0;
/// No new comparison of a sheet starts after this time, so that slow code fails soon.
const PATIENCE: Duration = Duration::from_secs(3);

/// The shortest of several runs over so many rounds.
fn best(sheet: &[u8], letters: &[u8], rounds: usize) -> Duration {
    let mut buffer = vec![0xFF; rounds];
    let run = |_| {
        buffer.fill(0xFF);
        let start = Instant::now();
        assert_eq!(library::evaluate(sheet, &letters[..rounds], &mut buffer), 0);
        start.elapsed()
    };
    (0..5).map(run).min().expect("several runs")
}

/// Rings that go both ways, in every order of three outputs and some of seven, and outputs that
/// look back and ahead by turns.
fn sheets() -> Vec<Vec<u8>> {
    let orders = [[0, 1, 2], [0, 2, 1], [1, 0, 2], [1, 2, 0], [2, 0, 1], [2, 1, 0]];
    let mut sheets = Vec::new();
    for order in orders {
        sheets.push(random::ring(&order, &[1, -1, -1]));
        sheets.push(random::ring(&order, &[-1, 1, 1]));
    }
    for offsets in [[1, 1, 1, -1, -1, -1, -1], [1, -1, 1, -1, 1, -1, 1], [1, 0, -1, 0, 1, 0, 0]] {
        for order in [[0, 1, 2, 3, 4, 5, 6], [6, 5, 4, 3, 2, 1, 0], [3, 0, 5, 1, 6, 2, 4]] {
            sheets.push(random::ring(&order, &offsets));
        }
    }
    sheets.push(random::turns());
    sheets
}

#[test]
fn four_times_the_rounds_take_about_four_times_as_long() {
    let letters = Random::new(21).letters(1, 4096);
    for sheet in sheets() {
        assert!(circular::accept(&sheet).is_ok());
        let (start, mut ratio) = (Instant::now(), f64::INFINITY);
        // A busy machine can spoil one comparison, hardly every one of ten.
        for _ in 0..10 {
            let short = best(&sheet, &letters, 1024).as_secs_f64();
            ratio = ratio.min(best(&sheet, &letters, 4096).as_secs_f64() / short);
            if ratio <= MOST || start.elapsed() > PATIENCE {
                break;
            }
        }
        assert!(ratio <= MOST, "{ratio:.1} times as long, sheet {}", hex(&sheet));
    }
}

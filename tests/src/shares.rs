//! The share of an output at closing, from its sentence, and counts of rounds at which it is easily got
//! wrong.

use crate::journal::MAX_ROUNDS;

/// True rounds per thousand, to the nearest, halves to the even number: of the whole numbers from 0 to 1000
/// the one that is least away from the exact share, and of two that are as far away the even one. Distances
/// are taken as many times as there are rounds, so that nothing is rounded.
pub fn share(true_rounds: u32, rounds: u32) -> u32 {
    let away = |number: u32| (1000 * true_rounds as u64).abs_diff(number as u64 * rounds as u64);
    (0..=1000).min_by_key(|&number| (away(number), number % 2)).expect("a number")
}

/// The number below, if the exact share is a half.
pub fn below_half(true_rounds: u32, rounds: u32) -> Option<u32> {
    let twice = |number: u32| (2 * number + 1) as u64 * rounds as u64;
    (0..1000).find(|&number| 2000 * true_rounds as u64 == twice(number))
}

/// Counts of true rounds at the halves between thousandths, or just below where none is there, and those one
/// less and one more.
fn around_halves(rounds: u32) -> Vec<u32> {
    let near = |below: u32| ((2 * below + 1) as u64 * rounds as u64 / 2000) as u32;
    let mut counts: Vec<u32> = (0..1000)
        .flat_map(|below| near(below).saturating_sub(1)..=near(below) + 1)
        .filter(|&count| count <= rounds)
        .chain([0, rounds])
        .collect();
    counts.sort();
    counts.dedup();
    counts
}

/// Numbers of rounds, each with counts of those that are true: all counts of up to 300 rounds; of more, those
/// around halves, which only multiples of 16 have, up to 2,000 rounds and near as many as there may be.
pub fn cases() -> Vec<(u32, Vec<u32>)> {
    let few = (1..=300).map(|rounds| (rounds, (0..=rounds).collect()));
    let more = (301..=2000).filter(|rounds| rounds % 16 == 0 || rounds % 97 == 0).chain(MAX_ROUNDS - 33..=MAX_ROUNDS);
    few.chain(more.map(|rounds| (rounds, around_halves(rounds)))).collect()
}

#[cfg(test)]
mod tests {
    use super::*;

    /// As the first release had it, halves up: the greatest whole number that is at most the exact share and a
    /// half.
    fn with_halves_up(true_rounds: u32, rounds: u32) -> u32 {
        let twice = 2000 * true_rounds as u64 + rounds as u64;
        (0..=1000).rev().find(|&number| 2 * number as u64 * rounds as u64 <= twice).expect("at least 0")
    }

    #[test]
    fn by_hand() {
        let few = [(0, 1, 0), (1, 1, 1000), (2, 5, 400), (1, 3, 333), (2, 3, 667), (1, 2000, 0), (3, 2000, 2)];
        let sixteenths = [(1, 16, 62), (3, 16, 188), (5, 16, 312), (7, 16, 438), (9, 16, 562), (15, 16, 938)];
        let many = [(500, 0), (501, 1), (1499, 1), (1500, 2), (2500, 2), (2501, 3), (998_500, 998), (999_499, 999)];
        let most = [(999_500, 1000), (1_000_000, 1000)].into_iter().chain(many);
        let most = most.map(|(true_rounds, expected)| (true_rounds, 1_000_000, expected));
        for (true_rounds, rounds, expected) in few.into_iter().chain(sixteenths).chain(most) {
            assert_eq!(share(true_rounds, rounds), expected, "{true_rounds} of {rounds}");
        }
        let counts = [(1, 16), (3, 16), (500, 1_000_000), (2, 3)];
        assert_eq!(counts.map(|(count, rounds)| with_halves_up(count, rounds)), [63, 188, 1, 667]);
        assert_eq!(counts.map(|(count, rounds)| below_half(count, rounds)), [Some(62), Some(187), Some(0), None]);
    }

    /// No other whole number is nearer, and a half is even. Halves up differs exactly at halves above an even
    /// number, and there by one.
    #[test]
    fn nearest_and_even_at_halves() {
        let mut halves = [0; 2];
        for (rounds, counts) in cases() {
            for count in counts {
                let (found, before) = (share(count, rounds), with_halves_up(count, rounds));
                let off = 2 * (1000 * count as u64).abs_diff(found as u64 * rounds as u64);
                assert!(off < rounds as u64 || off == rounds as u64 && found % 2 == 0, "{count} of {rounds}");
                let below = below_half(count, rounds);
                assert_eq!(below.is_some(), off == rounds as u64, "{count} of {rounds}");
                let differs = below.is_some_and(|below| below % 2 == 0);
                assert_eq!(before, found + differs as u32, "{count} of {rounds}");
                below.into_iter().for_each(|below| halves[below as usize % 2] += 1);
            }
        }
        assert!(halves.iter().all(|&times| times >= 1000), "{halves:?}");
    }

    #[test]
    fn multiples_of_sixteen_have_halves() {
        for rounds in 1..=600 {
            let some = (0..=rounds).any(|count| below_half(count, rounds).is_some());
            assert_eq!(some, rounds % 16 == 0, "{rounds}");
        }
    }
}

//! Rule 10 by its definition: some value of a trace reaches itself by one or more reads.

use crate::sheet::{self, Sheet};

/// A trace this long shows every circular sheet; `SUFFICIENT` rounds already do.
pub const ROUNDS: usize = 64;

/// Rounds in which a circular sheet has some value that reaches itself.
///
/// A trace with one more round has the same reads and some new ones, so a value that reaches itself
/// in N rounds does so in every longer trace: trying one N tries all smaller ones. It remains to
/// bound the rounds needed.
///
/// A value that reaches itself walks over the outputs and comes back with offsets that sum to 0.
/// Split that walk into cycles without a repeated output, of at most 7 reads each. If one of them
/// sums to 0, it goes at most 3 rounds up and down and fits into 4 rounds. Else one sums to
/// a > 0, through an output u, and one to -b < 0, through an output v, with a and b at most 7; and
/// u and v are joined by paths of at most 6 reads each way. Start at u in round 0 and repeat: at u
/// take the first cycle as long as the round is at most 0; go to v; there take the second cycle as
/// long as the round is above 0; go back to u. Rounds on the way, each range following from the
/// one before:
///
/// | leaving u | at v   | leaving v | at u   | inside first cycle | inside second cycle |
/// |-----------|--------|-----------|--------|--------------------|---------------------|
/// | 1..7      | -5..13 | -6..0     | -12..6 | -15..7             | -6..16              |
///
/// The walk stays in the 32 rounds from -15 to 16. It comes back to u in one of 19 rounds again and
/// again, so it meets one of them twice, and u's value there reaches itself.
pub const SUFFICIENT: usize = 32;

/// Rules 1 to 10: the sheet, or its refusal.
pub fn accept(bytes: &[u8]) -> Result<Sheet, u32> {
    let sheet = sheet::read(bytes)?;
    if circular(&sheet) {
        return Err(10);
    }
    Ok(sheet)
}

pub fn circular(sheet: &Sheet) -> bool {
    reaches_itself(sheet, ROUNDS)
}

#[derive(Clone, Copy, PartialEq)]
enum Mark {
    New,
    /// On the way from the start of the search to the value at hand.
    Open,
    Done,
}

/// Whether some value of a trace of so many rounds reaches itself: a depth-first search for a read
/// that goes back to a value on the way.
pub fn reaches_itself(sheet: &Sheet, rounds: usize) -> bool {
    let reads: Vec<Vec<(usize, i64)>> = (0..sheet.outputs()).map(|k| sheet.output_reads(k)).collect();
    let mut marks = vec![Mark::New; sheet.outputs() * rounds];
    for start in 0..marks.len() {
        if marks[start] != Mark::New {
            continue;
        }
        marks[start] = Mark::Open;
        // Each value on the way, with the number of its reads already followed.
        let mut way = vec![(start, 0)];
        while let Some((value, followed)) = way.last_mut() {
            let (output, round) = (*value / rounds, *value % rounds);
            let Some(&(read, offset)) = reads[output].get(*followed) else {
                marks[*value] = Mark::Done;
                way.pop();
                continue;
            };
            *followed += 1;
            let target = round as i64 + offset;
            if target < 0 || target >= rounds as i64 {
                continue;
            }
            let next = read * rounds + target as usize;
            match marks[next] {
                Mark::Open => return true,
                Mark::Done => {}
                Mark::New => {
                    marks[next] = Mark::Open;
                    way.push((next, 0));
                }
            }
        }
    }
    false
}

#[cfg(test)]
mod tests {
    use super::*;
    use crate::cases;
    use crate::random::{self, Random};

    #[test]
    fn explicit_sheets() {
        for case in cases::sheets() {
            assert_eq!(accept(&case.sheet).err().unwrap_or(0), case.number, "{}", case.name);
        }
    }

    /// The definition without the search: follow reads from each value until nothing new is met.
    fn reaches_itself_by_closure(sheet: &Sheet, rounds: usize) -> bool {
        let all = || (0..sheet.outputs()).flat_map(move |k| (0..rounds as i64).map(move |t| (k, t)));
        let reads_of = |(k, t): (usize, i64)| -> Vec<(usize, i64)> {
            let inside = |&(_, round): &(usize, i64)| round >= 0 && round < rounds as i64;
            sheet.output_reads(k).into_iter().map(|(q, o)| (q, t + o)).filter(inside).collect()
        };
        let reached_from = |value| {
            let mut reached: Vec<(usize, i64)> = reads_of(value);
            let mut seen = 0;
            while seen < reached.len() {
                for next in reads_of(reached[seen]) {
                    if !reached.contains(&next) {
                        reached.push(next);
                    }
                }
                seen += 1;
            }
            reached
        };
        all().any(|value| reached_from(value).contains(&value))
    }

    #[test]
    fn search_agrees_with_the_closure_for_each_number_of_rounds() {
        let mut random = Random::new(301);
        for _ in 0..300 {
            let sheet = sheet::read(&random::sparse(&mut random)).unwrap();
            for rounds in 1..=6 {
                assert_eq!(reaches_itself(&sheet, rounds), reaches_itself_by_closure(&sheet, rounds));
            }
        }
    }

    #[test]
    fn longer_traces_show_no_further_circles() {
        let mut random = Random::new(302);
        let (mut circular_sheets, mut slow) = (0, 0);
        for turn in 0..6000 {
            let make = if turn % 2 == 0 { random::sparse } else { random::two_rings };
            let sheet = sheet::read(&make(&mut random)).unwrap();
            let found = circular(&sheet);
            assert_eq!(reaches_itself(&sheet, SUFFICIENT), found);
            assert_eq!(reaches_itself(&sheet, 200), found);
            circular_sheets += found as usize;
            slow += (found && !reaches_itself(&sheet, 4)) as usize;
        }
        assert!(circular_sheets > 1000 && circular_sheets < 5000, "{circular_sheets}");
        assert!(slow > 200, "{slow} sheets need more than four rounds");
    }

    #[test]
    fn more_rounds_keep_a_circle() {
        let mut random = Random::new(303);
        for _ in 0..500 {
            let sheet = sheet::read(&random::sparse(&mut random)).unwrap();
            let found: Vec<bool> = (1..40).map(|rounds| reaches_itself(&sheet, rounds)).collect();
            assert!(found.windows(2).all(|pair| pair[0] <= pair[1]));
        }
    }

    /// Two cycles of opposite signs through output 0: the shortest trace that shows the circle.
    #[test]
    fn opposite_cycles_need_several_rounds() {
        let shortest = |expressions: &[&str]| {
            let sheet = sheet::read(&cases::plain(1, expressions)).unwrap();
            (1..=ROUNDS).find(|&rounds| reaches_itself(&sheet, rounds))
        };
        assert_eq!(shortest(&["62 53 03", "61", "54", "51"]), Some(5));
        assert_eq!(shortest(&["62 54 03", "63", "61", "55", "56", "51"]), Some(7));
        assert_eq!(shortest(&["62 54 03", "63", "61", "55", "56", "57", "51"]), Some(8));
    }
}

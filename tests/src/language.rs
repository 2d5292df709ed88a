//! The values of a whole trace, found in two ways, and the entry that evaluates one.

use crate::circular;
use crate::sheet::{Expression, Sheet};

/// The most letters that one evaluation takes.
pub const MAX_LETTERS: usize = 4096;

/// The value of an expression. A valuation has stream q in bit q; a round that the trace lacks is
/// `None`.
pub fn value(expression: &Expression, earlier: Option<u8>, now: u8, later: Option<u8>) -> bool {
    let part = |part: &Expression| value(part, earlier, now, later);
    match expression {
        Expression::Constant(constant) => *constant,
        Expression::Not(inner) => !part(inner),
        // Both sides are always worked out, as the tree has no order of evaluation.
        Expression::And(left, right) => part(left) & part(right),
        Expression::Or(left, right) => part(left) | part(right),
        Expression::Equal(left, right) => part(left) == part(right),
        Expression::Read(read) => {
            let round = match read.offset {
                -1 => earlier,
                0 => Some(now),
                _ => later,
            };
            round.map_or(read.default, |valuation| valuation >> read.stream & 1 == 1)
        }
    }
}

/// Whether these output bytes satisfy every equation of the sheet over these letters.
pub fn satisfies(sheet: &Sheet, letters: &[u8], outputs: &[u8]) -> bool {
    if letters.len() != outputs.len() {
        return false;
    }
    let valuations: Vec<u8> = letters.iter().zip(outputs).map(|(letter, byte)| letter | byte << sheet.inputs).collect();
    let unused_bits_clear = outputs.iter().all(|byte| *byte as u32 >> sheet.outputs() == 0);
    unused_bits_clear && (0..letters.len()).all(|t| (0..sheet.outputs()).all(|k| equation(sheet, &valuations, k, t)))
}

fn equation(sheet: &Sheet, valuations: &[u8], k: usize, t: usize) -> bool {
    let stated = valuations[t] >> (sheet.inputs + k) & 1 == 1;
    stated == value_at(sheet, valuations, k, t)
}

fn value_at(sheet: &Sheet, valuations: &[u8], k: usize, t: usize) -> bool {
    let earlier = t.checked_sub(1).map(|before| valuations[before]);
    let later = valuations.get(t + 1).copied();
    value(&sheet.expressions[k], earlier, valuations[t], later)
}

/// All lists of output bytes that satisfy the equations, by trying each. For small traces only.
pub fn solutions(sheet: &Sheet, letters: &[u8]) -> Vec<Vec<u8>> {
    let (n, bits) = (sheet.outputs(), sheet.outputs() * letters.len());
    assert!(bits <= 16, "too many assignments to try");
    let assignment = |number: u32| -> Vec<u8> {
        (0..letters.len()).map(|t| (number >> (n * t)) as u8 & ((1u16 << n) - 1) as u8).collect()
    };
    (0..1u32 << bits).map(assignment).filter(|outputs| satisfies(sheet, letters, outputs)).collect()
}

#[derive(Clone, Copy, PartialEq)]
enum State {
    Unknown,
    /// Waiting for the values it reads.
    Waiting,
    Known,
}

/// The output bytes by recursion on the equations, each value worked out once, with a list of
/// waiting values in place of nested calls. `None` if a value waits for itself.
pub fn values(sheet: &Sheet, letters: &[u8]) -> Option<Vec<u8>> {
    let (n, rounds) = (sheet.outputs(), letters.len());
    let reads: Vec<Vec<(usize, i64)>> = (0..n).map(|k| sheet.output_reads(k)).collect();
    let mut states = vec![State::Unknown; n * rounds];
    let mut valuations = letters.to_vec();
    for start in 0..n * rounds {
        let mut wanted = vec![start];
        while let Some(&node) = wanted.last() {
            let (t, k) = (node / n, node % n);
            match states[node] {
                State::Known => {
                    wanted.pop();
                }
                State::Waiting => {
                    // Everything it reads has been found since.
                    if value_at(sheet, &valuations, k, t) {
                        valuations[t] |= 1 << (sheet.inputs + k);
                    }
                    states[node] = State::Known;
                    wanted.pop();
                }
                State::Unknown => {
                    states[node] = State::Waiting;
                    for &(read, offset) in &reads[k] {
                        let target = t as i64 + offset;
                        if target < 0 || target >= rounds as i64 {
                            continue;
                        }
                        let next = target as usize * n + read;
                        match states[next] {
                            State::Known => {}
                            State::Waiting => return None,
                            State::Unknown => wanted.push(next),
                        }
                    }
                }
            }
        }
    }
    Some(valuations.iter().map(|valuation| valuation >> sheet.inputs).collect())
}

/// Evaluation as an entry: the sheet's own refusals, then 16, then 11, else the output bytes. `room`
/// is the length of the buffer.
pub fn evaluate(sheet: &[u8], letters: &[u8], room: usize) -> Result<Vec<u8>, u32> {
    let sheet = circular::accept(sheet)?;
    if letters.is_empty() || letters.len() > MAX_LETTERS || room < letters.len() {
        return Err(16);
    }
    if letters.iter().any(|letter| letter >> sheet.inputs != 0) {
        return Err(11);
    }
    Ok(values(&sheet, letters).expect("an accepted sheet has values for every trace"))
}

#[cfg(test)]
mod tests {
    use super::*;
    use crate::cases;
    use crate::random::{self, Random};
    use crate::sheet;

    #[test]
    fn explicit_traces() {
        for case in cases::traces() {
            assert_eq!(evaluate(&case.sheet, &case.letters, case.letters.len()), Ok(case.outputs), "{}", case.name);
        }
    }

    #[test]
    fn explicit_refusals() {
        for case in cases::evaluation_refusals() {
            assert_eq!(evaluate(&case.sheet, &case.letters, case.room), Err(case.number), "{}", case.name);
        }
    }

    #[test]
    fn both_ways_agree_and_leave_one_solution() {
        let mut random = Random::new(401);
        for _ in 0..1500 {
            let sheet = circular::accept(&random::accepted(&mut random)).unwrap();
            let longest = 12 / sheet.outputs();
            let rounds = random.range(1, longest);
            let letters = random.letters(sheet.inputs, rounds);
            let found = solutions(&sheet, &letters);
            assert_eq!(found.len(), 1);
            assert_eq!(values(&sheet, &letters), Some(found[0].clone()));
        }
    }

    #[test]
    fn recursion_satisfies_the_equations_beyond_the_longest_trace() {
        let mut random = Random::new(402);
        for _ in 0..20 {
            let sheet = circular::accept(&random::accepted(&mut random)).unwrap();
            let letters = random.letters(sheet.inputs, 10_000);
            let found = values(&sheet, &letters).unwrap();
            assert!(satisfies(&sheet, &letters, &found));
        }
    }

    #[test]
    fn a_circular_sheet_can_have_no_solution_or_several() {
        let letters = [0, 0];
        let own_negation = sheet::read(&sheet::write(1, 255, &[vec![0x41, 0x02]])).unwrap();
        assert_eq!(solutions(&own_negation, &letters), Vec::<Vec<u8>>::new());
        assert_eq!(values(&own_negation, &letters), None);
        let own_value = sheet::read(&sheet::write(1, 255, &[vec![0x41]])).unwrap();
        assert_eq!(solutions(&own_value, &letters).len(), 4);
        assert_eq!(values(&own_value, &letters), None);
    }

    #[test]
    fn recursion_fails_exactly_where_a_value_reaches_itself() {
        let mut random = Random::new(403);
        for _ in 0..1000 {
            let sheet = sheet::read(&random::sparse(&mut random)).unwrap();
            let rounds = random.range(1, 12);
            let letters = random.letters(sheet.inputs, rounds);
            assert_eq!(values(&sheet, &letters).is_none(), circular::reaches_itself(&sheet, rounds));
        }
    }
}

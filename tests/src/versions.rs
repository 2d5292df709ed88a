//! Sheets of both versions that say the same.

use crate::random::Random;
use crate::sheet::{self, with_version, write, Expression, LONGEST_EXPRESSION};

/// The version 1 sheet in which each comparison of a sheet is written out. `None` if an expression
/// gets too long by that.
pub fn written_out(bytes: &[u8]) -> Option<Vec<u8>> {
    let sheet = sheet::read(bytes).expect("a sheet that breaks no rule below 10");
    if sheet.expressions.iter().any(|expression| length(expression) > LONGEST_EXPRESSION) {
        return None;
    }
    let expressions: Vec<Vec<u8>> =
        sheet.expressions.iter().map(|expression| without_equal(expression).to_bytes()).collect();
    Some(write(bytes[5], bytes[7], &expressions))
}

/// How many bytes an expression has that is written out. A comparison doubles those of its operands,
/// so this is found without making them.
fn length(expression: &Expression) -> usize {
    match expression {
        Expression::Constant(_) | Expression::Read(_) => 1,
        Expression::Not(inner) => length(inner) + 1,
        Expression::And(left, right) | Expression::Or(left, right) => length(left) + length(right) + 1,
        Expression::Equal(left, right) => 2 * (length(left) + length(right)) + 5,
    }
}

/// The expression written out: two values are alike if both are true or both are false.
fn without_equal(expression: &Expression) -> Expression {
    let part = |part: &Expression| Box::new(without_equal(part));
    match expression {
        Expression::Constant(_) | Expression::Read(_) => expression.clone(),
        Expression::Not(inner) => Expression::Not(part(inner)),
        Expression::And(left, right) => Expression::And(part(left), part(right)),
        Expression::Or(left, right) => Expression::Or(part(left), part(right)),
        Expression::Equal(left, right) => {
            let not = |inner: &Expression| Box::new(Expression::Not(part(inner)));
            let (both, neither) = (Expression::And(part(left), part(right)), Expression::And(not(left), not(right)));
            Expression::Or(Box::new(both), Box::new(neither))
        }
    }
}

/// A sheet of version 1 and one of version 2 that say the same: a version 1 sheet and itself with the
/// other version, or a version 2 sheet, written out, and itself.
pub fn twins(random: &mut Random, make: impl Fn(&mut Random) -> Vec<u8>) -> [Vec<u8>; 2] {
    loop {
        let bytes = make(random);
        let first = match sheet::version(&bytes) {
            // Most are passed over, so that about as many are written out.
            1 => random.one_in(4).then(|| bytes.clone()),
            _ => written_out(&bytes),
        };
        if let Some(first) = first {
            return [first, with_version(&bytes, 2)];
        }
    }
}

#[cfg(test)]
mod tests {
    use super::*;
    use crate::journal::Book;
    use crate::monitor::Monitor;
    use crate::random;
    use crate::{cases, circular, hex, language};

    fn one(expression: &str) -> Vec<u8> {
        cases::plain(2, &[expression])
    }

    #[test]
    fn written_out_by_hand() {
        let alike = "40 41 03 40 02 41 02 03 04";
        let nested = format!("{alike} 42 03 {alike} 02 42 02 03 04");
        let both = format!("{alike} {alike} 02 03");
        let pairs = [
            ("40 41 05", alike),
            ("40 41 05 42 05", &nested),
            ("40 41 05 40 41 05 02 03", &both),
            ("58 00 05", "58 00 03 58 02 00 02 03 04"),
            ("40 41 04 02", "40 41 04 02"),
        ];
        for (second, first) in pairs {
            assert_eq!(written_out(&cases::version_2(one(second))), Some(one(first)), "{second}");
        }
    }

    #[test]
    fn written_out_too_long() {
        let alike = |length: usize| cases::version_2(one(&format!("40{} 41 05", " 02".repeat(length - 1))));
        assert_eq!(written_out(&alike(28)).map(|first| first[8]), Some(63));
        assert_eq!(written_out(&alike(29)), None);
        assert_eq!(written_out(&cases::longest_comparing()), None);
    }

    /// Values, reads and what is circular, in the outside evaluator alone.
    #[test]
    fn twins_mean_the_same() {
        let mut random = Random::new(521);
        let mut written = 0;
        for _ in 0..3000 {
            let sheets = twins(&mut random, random::well_formed);
            assert_eq!(sheets.each_ref().map(|bytes| sheet::version(bytes)), [1, 2]);
            let [first, second] = sheets.each_ref().map(|bytes| sheet::read(bytes).unwrap());
            assert!(!first.compares() && (second.compares() || first == second), "{}", hex(&sheets[1]));
            written += second.compares() as usize;
            assert_eq!(circular::circular(&first), circular::circular(&second), "{}", hex(&sheets[1]));
            for (k, expressions) in first.expressions.iter().zip(&second.expressions).enumerate() {
                assert_eq!(first.output_reads(k), second.output_reads(k), "{}", hex(&sheets[1]));
                for _ in 0..20 {
                    let round = |random: &mut Random| (!random.one_in(4)).then(|| random.byte());
                    let (earlier, now, later) = (round(&mut random), random.byte(), round(&mut random));
                    let value = |expression| language::value(expression, earlier, now, later);
                    assert_eq!(value(expressions.0), value(expressions.1), "{}", hex(&sheets[1]));
                }
            }
        }
        assert!(written > 1000, "{written}");
    }

    /// Live pairs and journals, in the outside monitor alone.
    #[test]
    fn twins_have_the_same_journals() {
        let mut random = Random::new(522);
        for _ in 0..300 {
            let sheets = twins(&mut random, |random| random::small(random, 6));
            let [first, second] = sheets.each_ref().map(|bytes| Monitor::new(bytes).unwrap());
            assert_eq!((&first.live, first.reach), (&second.live, second.reach), "{}", hex(&sheets[1]));
            let (mut one, mut other) = (Book::new(&first), Book::new(&second));
            for _ in 0..random.range(1, 8) {
                let letters = random.round_along(&one, 40);
                assert_eq!(one.round(letters), other.round(letters), "{}", hex(&sheets[1]));
            }
            assert_eq!(one.close(), other.close(), "{}", hex(&sheets[1]));
        }
    }
}

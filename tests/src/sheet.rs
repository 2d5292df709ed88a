//! The sheet format: bytes to expression trees, or the number of the first rule broken (1 to 9).

/// Length of the fixed part: mark, version, counts, assumption.
pub const HEADER: usize = 8;
/// The most bytes one expression may have.
pub const LONGEST_EXPRESSION: usize = 64;
/// Seven outputs, each with a length byte and a full expression, after the header.
pub const LONGEST_SHEET: usize = HEADER + 7 * (1 + LONGEST_EXPRESSION);
/// The assumption byte of a sheet without an assumption.
pub const NO_ASSUMPTION: u8 = 255;

/// An expression as a tree.
#[derive(Clone, Debug, PartialEq, Eq)]
pub enum Expression {
    Constant(bool),
    Not(Box<Expression>),
    And(Box<Expression>, Box<Expression>),
    Or(Box<Expression>, Box<Expression>),
    /// The two values are alike.
    Equal(Box<Expression>, Box<Expression>),
    Read(Read),
}

/// A read of a stream one round earlier (-1), now (0) or one round later (+1).
#[derive(Clone, Copy, Debug, PartialEq, Eq)]
pub struct Read {
    pub stream: usize,
    pub offset: i64,
    /// The value where the trace has no such round.
    pub default: bool,
}

/// A sheet that keeps rules 1 to 9. It may still be circular.
#[derive(Clone, Debug, PartialEq, Eq)]
pub struct Sheet {
    pub inputs: usize,
    /// The number of an output, not of a stream.
    pub assumption: Option<usize>,
    /// One for each output. Output k is stream `inputs + k`.
    pub expressions: Vec<Expression>,
}

impl Sheet {
    pub fn outputs(&self) -> usize {
        self.expressions.len()
    }

    /// Whether some expression compares two values.
    pub fn compares(&self) -> bool {
        self.expressions.iter().any(|expression| expression.to_bytes().contains(&0x05))
    }

    /// The reads of output k that go to outputs, each as the output read and the offset.
    pub fn output_reads(&self, k: usize) -> Vec<(usize, i64)> {
        let mut found = Vec::new();
        self.expressions[k].for_each_read(&mut |read| {
            if read.stream >= self.inputs {
                let edge = (read.stream - self.inputs, read.offset);
                if !found.contains(&edge) {
                    found.push(edge);
                }
            }
        });
        found
    }
}

impl Expression {
    /// The bytes that are read as this expression.
    pub fn to_bytes(&self) -> Vec<u8> {
        let joined =
            |left: &Expression, right: &Expression, byte| [left.to_bytes(), right.to_bytes(), vec![byte]].concat();
        match self {
            Expression::Constant(constant) => vec![*constant as u8],
            Expression::Not(part) => [part.to_bytes(), vec![0x02]].concat(),
            Expression::And(left, right) => joined(left, right, 0x03),
            Expression::Or(left, right) => joined(left, right, 0x04),
            Expression::Equal(left, right) => joined(left, right, 0x05),
            Expression::Read(read) => vec![byte_of_read(read.stream, read.offset, read.default)],
        }
    }

    pub fn for_each_read(&self, visit: &mut impl FnMut(&Read)) {
        match self {
            Expression::Constant(_) => {}
            Expression::Not(part) => part.for_each_read(visit),
            Expression::And(left, right) | Expression::Or(left, right) | Expression::Equal(left, right) => {
                left.for_each_read(visit);
                right.for_each_read(visit);
            }
            Expression::Read(read) => visit(read),
        }
    }
}

/// Rules 1 to 9 in their order.
pub fn read(bytes: &[u8]) -> Result<Sheet, u32> {
    if bytes.len() < HEADER {
        return Err(1);
    }
    if &bytes[..3] != b"SLR" {
        return Err(2);
    }
    let version = version(bytes);
    if version != 1 && version != 2 {
        return Err(3);
    }
    let (inputs, outputs) = (bytes[5] as usize, bytes[6] as usize);
    if !(1..=6).contains(&inputs) || !(1..=7).contains(&outputs) || inputs + outputs > 8 {
        return Err(4);
    }
    let assumption = match bytes[7] {
        NO_ASSUMPTION => None,
        output if (output as usize) < outputs => Some(output as usize),
        _ => return Err(5),
    };
    let mut rest = &bytes[HEADER..];
    let mut expressions = Vec::new();
    for _ in 0..outputs {
        let (&length, after) = rest.split_first().ok_or(6u32)?;
        let length = length as usize;
        if length == 0 || length > LONGEST_EXPRESSION || length > after.len() {
            return Err(6);
        }
        let (stretch, others) = after.split_at(length);
        expressions.push(read_expression(stretch, version, inputs + outputs)?);
        rest = others;
    }
    if !rest.is_empty() {
        return Err(9);
    }
    Ok(Sheet { inputs, assumption, expressions })
}

/// The version in a header.
pub fn version(bytes: &[u8]) -> u16 {
    u16::from_le_bytes([bytes[3], bytes[4]])
}

/// Rules 7 and 8 on one expression. The first byte that breaks either decides. In version 1 the byte
/// 05 is unknown, whatever stands before it.
fn read_expression(bytes: &[u8], version: u16, streams: usize) -> Result<Expression, u32> {
    let mut stack: Vec<Expression> = Vec::new();
    for &byte in bytes {
        let part = match byte {
            0x00 => Expression::Constant(false),
            0x01 => Expression::Constant(true),
            0x02 => Expression::Not(Box::new(stack.pop().ok_or(8u32)?)),
            0x05 if version == 1 => return Err(7),
            0x03..=0x05 => {
                let right = Box::new(stack.pop().ok_or(8u32)?);
                let left = Box::new(stack.pop().ok_or(8u32)?);
                match byte {
                    0x03 => Expression::And(left, right),
                    0x04 => Expression::Or(left, right),
                    _ => Expression::Equal(left, right),
                }
            }
            _ => {
                let read = read_of_byte(byte).ok_or(7u32)?;
                if read.stream >= streams {
                    return Err(7);
                }
                Expression::Read(read)
            }
        };
        stack.push(part);
    }
    match stack.pop() {
        Some(whole) if stack.is_empty() => Ok(whole),
        _ => Err(8),
    }
}

/// The read that a byte stands for, if it stands for one.
pub fn read_of_byte(byte: u8) -> Option<Read> {
    let (offset, default) = match byte & 0xF8 {
        0x40 => (0, false),
        0x50 => (-1, false),
        0x58 => (-1, true),
        0x60 => (1, false),
        0x68 => (1, true),
        _ => return None,
    };
    Some(Read { stream: (byte & 7) as usize, offset, default })
}

/// The byte of a read; the inverse of `read_of_byte`. A read of the same round has no default.
pub fn byte_of_read(stream: usize, offset: i64, default: bool) -> u8 {
    assert!(stream < 8);
    let family = match (offset, default) {
        (0, _) => 0x40,
        (-1, false) => 0x50,
        (-1, true) => 0x58,
        (1, false) => 0x60,
        (1, true) => 0x68,
        _ => panic!("reads reach one round at most"),
    };
    family + stream as u8
}

/// The bytes of a sheet of version 1, made from its parts. Nothing is checked, so refused sheets can be
/// made too.
pub fn write(inputs: u8, assumption: u8, expressions: &[Vec<u8>]) -> Vec<u8> {
    write_version(1, inputs, assumption, expressions)
}

/// The same of any version.
pub fn write_version(version: u16, inputs: u8, assumption: u8, expressions: &[Vec<u8>]) -> Vec<u8> {
    let [low, high] = version.to_le_bytes();
    let mut bytes = vec![b'S', b'L', b'R', low, high, inputs, expressions.len() as u8, assumption];
    for expression in expressions {
        bytes.push(expression.len() as u8);
        bytes.extend(expression);
    }
    bytes
}

/// A sheet with the version in its header replaced.
pub fn with_version(sheet: &[u8], version: u16) -> Vec<u8> {
    [&sheet[..3], &version.to_le_bytes(), &sheet[5..]].concat()
}

#[cfg(test)]
mod tests {
    use super::*;
    use crate::cases;
    use crate::hex;
    use crate::random::{self, Random};

    fn now(stream: usize) -> Box<Expression> {
        Box::new(Expression::Read(Read { stream, offset: 0, default: false }))
    }

    #[test]
    fn session_sheet_as_trees() {
        let sheet = read(&cases::session_sheet()).unwrap();
        let beside = |stream, offset| Box::new(Expression::Read(Read { stream, offset, default: false }));
        let not = |part| Box::new(Expression::Not(part));
        let or = |left, right| Box::new(Expression::Or(left, right));
        assert_eq!((sheet.inputs, sheet.outputs(), sheet.assumption), (2, 2, Some(1)));
        assert_eq!(sheet.expressions[0], *or(or(not(now(0)), now(1)), beside(1, 1)));
        assert_eq!(sheet.expressions[1], *or(or(not(now(1)), now(0)), beside(0, -1)));
    }

    #[test]
    fn a_sheet_written_from_parts_reads_back() {
        let bytes = write(2, 1, &[vec![0x40, 0x02], vec![0x41, 0x50, 0x03]]);
        let sheet = read(&bytes).unwrap();
        let earlier = Read { stream: 0, offset: -1, default: false };
        let now = Read { stream: 1, offset: 0, default: false };
        assert_eq!(
            sheet.expressions[1],
            Expression::And(Box::new(Expression::Read(now)), Box::new(Expression::Read(earlier)))
        );
    }

    #[test]
    fn comparisons_as_trees() {
        let sheet = read(&cases::version_2(cases::plain(2, &["40 41 05", "40 41 42 05 05"]))).unwrap();
        let equal = |left, right| Box::new(Expression::Equal(left, right));
        assert_eq!(sheet.expressions, [*equal(now(0), now(1)), *equal(now(0), equal(now(1), now(2)))]);
    }

    #[test]
    fn trees_as_bytes() {
        let mut random = Random::new(511);
        for _ in 0..2000 {
            let bytes = random::well_formed(&mut random);
            let expressions: Vec<Vec<u8>> =
                read(&bytes).unwrap().expressions.iter().map(Expression::to_bytes).collect();
            assert_eq!(write_version(version(&bytes), bytes[5], bytes[7], &expressions), bytes, "{}", hex(&bytes));
        }
    }

    #[test]
    fn forty_bytes_are_reads() {
        let reads: Vec<u8> = (0..=255).filter(|&byte| read_of_byte(byte).is_some()).collect();
        let expected: Vec<u8> = (0x40..=0x47).chain(0x50..=0x6F).collect();
        assert_eq!(reads, expected);
        for byte in reads {
            let read = read_of_byte(byte).unwrap();
            assert_eq!(byte_of_read(read.stream, read.offset, read.default), byte);
        }
    }

    #[test]
    fn longest_sheet() {
        assert_eq!(LONGEST_SHEET, 463);
        for bytes in [cases::longest(), cases::longest_comparing()] {
            assert_eq!(bytes.len(), LONGEST_SHEET);
            assert!(read(&bytes).is_ok());
        }
    }
}

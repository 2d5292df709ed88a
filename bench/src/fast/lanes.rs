//! Expressions in one lane, and in W words of 64 lanes at once, lane i of word j standing for the
//! valuation 64 j + i.

use super::sheet::Sheet;
use std::array::from_fn;

/// Stream q of the valuation 64 j + i in lane i of word j, at [q][j].
const STREAMS: [[u64; 4]; 8] = [
    [0xAAAA_AAAA_AAAA_AAAA; 4],
    [0xCCCC_CCCC_CCCC_CCCC; 4],
    [0xF0F0_F0F0_F0F0_F0F0; 4],
    [0xFF00_FF00_FF00_FF00; 4],
    [0xFFFF_0000_FFFF_0000; 4],
    [0xFFFF_FFFF_0000_0000; 4],
    [0, u64::MAX, 0, u64::MAX],
    [0, 0, u64::MAX, u64::MAX],
];

/// The lanes in which stream q is true.
pub fn stream<const W: usize>(q: usize) -> [u64; W] {
    from_fn(|j| STREAMS[q][j])
}

/// The lanes of the valuations below `size`.
pub fn below<const W: usize>(size: usize) -> [u64; W] {
    from_fn(|_| if size < 64 { (1 << size) - 1 } else { u64::MAX })
}

/// The values of all reads in a round, at bit byte - 0x40. What varies by lane is `None` as well.
pub fn reads(now: usize, earlier: Option<usize>, later: Option<usize>) -> u64 {
    let beside = |round: Option<usize>| round.map_or(0xFF00, |valuation| valuation << 8 | valuation);
    (now | beside(earlier) << 16 | beside(later) << 32) as u64
}

/// The value of an expression, on a stack of bits whose top is bit 0.
pub fn value(expression: &[u8], reads: u64) -> u64 {
    let mut stack = 0;
    for &byte in expression {
        stack = match byte {
            0x40.. => stack << 1 | reads >> (byte & 0x3F) & 1,
            0x02 => stack ^ 1,
            0x03 => stack >> 1 & (stack | !1),
            0x04 => stack >> 1 | stack & 1,
            // A range, since for a fourth single byte the compiler makes a table of jumps, which is slower.
            0x05.. => stack >> 1 ^ !stack & 1,
            _ => stack << 1 | byte as u64,
        };
    }
    stack & 1
}

/// The family of reads that varies by lane: 4 for the round itself, 5 for one round earlier, 6 for
/// one round later.
pub const NOW: u8 = 4;
pub const EARLIER: u8 = 5;
pub const LATER: u8 = 6;

/// The lanes in which all equations hold at b, or at the lane's own valuation.
pub fn equations<const W: usize, const VARYING: u8>(sheet: &Sheet, reads: u64, b: usize) -> [u64; W] {
    let mut held = [u64::MAX; W];
    for (k, expression) in sheet.expressions().iter().enumerate() {
        let found = values::<W, VARYING>(expression, reads);
        let output = sheet.inputs + k;
        let own = if VARYING == NOW { stream::<W>(output) } else { [spread((b >> output) as u64); W] };
        held = from_fn(|j| held[j] & !(found[j] ^ own[j]));
        if held == [0; W] {
            break;
        }
    }
    held
}

/// The value of an expression in each lane. The topmost value is kept apart from the others.
fn values<const W: usize, const VARYING: u8>(expression: &[u8], reads: u64) -> [u64; W] {
    let mut stack = [[0; W]; 32];
    let mut used = 0;
    let mut top = [0; W];
    for &byte in expression {
        let mut pop = || {
            used -= 1;
            stack[used & 31]
        };
        let new = match byte {
            0x02 => {
                top = top.map(|word| !word);
                continue;
            }
            0x03 | 0x04 => {
                let other = pop();
                top = if byte == 0x03 { from_fn(|j| top[j] & other[j]) } else { from_fn(|j| top[j] | other[j]) };
                continue;
            }
            0x00 | 0x01 => [spread(byte as u64); W],
            _ if byte >> 4 == VARYING => stream::<W>((byte & 7) as usize),
            0x40.. => [spread(reads >> (byte & 0x3F)); W],
            // 05, tested for last: of the other bytes, only reads that do not vary pay for that.
            _ => {
                let other = pop();
                top = from_fn(|j| !(top[j] ^ other[j]));
                continue;
            }
        };
        stack[used & 31] = top;
        used += 1;
        top = new;
    }
    top
}

/// Bit 0 in all lanes.
fn spread(bit: u64) -> u64 {
    (bit & 1).wrapping_neg()
}

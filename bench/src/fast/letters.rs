//! Sets of letters: bit j of a word stands for letter j.

/// The letters of so many inputs.
pub fn all_letters(inputs: usize) -> u64 {
    u64::MAX >> (64 - (1 << inputs))
}

/// The letters that agree with masks that are in order. It begins with the lowest of them; each input
/// that is not known doubles what there is.
pub fn of_masks(inputs: u8, known: u8, value: u8) -> u64 {
    let unknown = !known & ((1 << inputs) - 1);
    (0..6).fold(1u64 << value, |set, input| set | set << (unknown & 1 << input))
}

/// The set in all lanes, lane i having the letter of i's lowest bits. The factors have bits 2^m apart.
pub fn repeated(inputs: usize, set: u64) -> u64 {
    const FACTORS: [u64; 7] = [
        u64::MAX,
        0x5555_5555_5555_5555,
        0x1111_1111_1111_1111,
        0x0101_0101_0101_0101,
        0x0001_0001_0001_0001,
        0x0000_0001_0000_0001,
        1,
    ];
    set * FACTORS[inputs]
}

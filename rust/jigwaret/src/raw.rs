//! The library's functions as they are: each returns [`ACCEPTED`], or the number of the refusal, and a
//! refused call changes nothing. Every slice is allowed, whatever its length and contents.
//!
//! A round, a closing and a question about several outputs are handed the sheet with which their storage and
//! record were prepared, and what the call before left of these; else the answers say nothing about a
//! journal. [`crate::Journal`] sees to that.

/// Returned where a call is accepted.
pub const ACCEPTED: u32 = 0;
/// Returned where a record or an answer has the wrong number of elements.
pub const WRONG_SIZES: u32 = 255;
/// Numbers of 64 bits that a journal's storage has at least.
pub const STORAGE_WORDS: usize = 3084;
/// Rounds, closed, and four counts (true, false, open, broken) for each of seven outputs.
pub const RECORD_NUMBERS: usize = 30;
/// Numbers that an answer has room for at least.
pub const ANSWER_NUMBERS: usize = 16;

mod ffi {
    extern "C" {
        pub fn jigwaret_check(sheet: *const u8, sheet_len: usize) -> u32;
        pub fn jigwaret_evaluate(
            sheet: *const u8,
            sheet_len: usize,
            letters: *const u8,
            letters_len: usize,
            out: *mut u8,
            out_len: usize,
        ) -> u32;
        pub fn jigwaret_prepare(
            sheet: *const u8,
            sheet_len: usize,
            storage: *mut u64,
            storage_len: usize,
            record: *mut u32,
            record_len: usize,
            answer: *mut u32,
            answer_len: usize,
        ) -> u32;
        pub fn jigwaret_letters(inputs: u8, known: u8, value: u8, letters: *mut u64) -> u32;
        pub fn jigwaret_round(
            sheet: *const u8,
            sheet_len: usize,
            storage: *mut u64,
            storage_len: usize,
            record: *mut u32,
            record_len: usize,
            letters: u64,
            answer: *mut u32,
            answer_len: usize,
        ) -> u32;
        pub fn jigwaret_close(
            sheet: *const u8,
            sheet_len: usize,
            storage: *const u64,
            storage_len: usize,
            record: *mut u32,
            record_len: usize,
            answer: *mut u32,
            answer_len: usize,
        ) -> u32;
        pub fn jigwaret_together(
            sheet: *const u8,
            sheet_len: usize,
            storage: *const u64,
            storage_len: usize,
            record: *const u32,
            record_len: usize,
            outputs: u8,
            answer: *mut u32,
            answer_len: usize,
        ) -> u32;
    }
}

/// Checks a sheet.
pub fn check(sheet: &[u8]) -> u32 {
    // SAFETY: the library only reads the bytes of the slice.
    unsafe { ffi::jigwaret_check(sheet.as_ptr(), sheet.len()) }
}

/// Writes one byte for each letter into `out`: bit k is output k.
pub fn evaluate(sheet: &[u8], letters: &[u8], out: &mut [u8]) -> u32 {
    // SAFETY: the library reads the first two slices and writes only inside the third.
    unsafe {
        ffi::jigwaret_evaluate(
            sheet.as_ptr(),
            sheet.len(),
            letters.as_ptr(),
            letters.len(),
            out.as_mut_ptr(),
            out.len(),
        )
    }
}

/// Prepares the storage, makes the record fresh and writes the number of live pairs and the exact reach into
/// `answer`.
pub fn prepare(sheet: &[u8], storage: &mut [u64], record: &mut [u32], answer: &mut [u32]) -> u32 {
    // SAFETY: the library reads the sheet and writes only inside the other slices.
    unsafe {
        ffi::jigwaret_prepare(
            sheet.as_ptr(),
            sheet.len(),
            storage.as_mut_ptr(),
            storage.len(),
            record.as_mut_ptr(),
            record.len(),
            answer.as_mut_ptr(),
            answer.len(),
        )
    }
}

/// Writes the set of the letters that agree with the masks, for so many inputs.
pub fn letters(inputs: u8, known: u8, value: u8, letters: &mut u64) -> u32 {
    // SAFETY: the library writes only the number.
    unsafe { ffi::jigwaret_letters(inputs, known, value, letters) }
}

/// Takes a round into the record and storage and writes the verdicts into `answer`. Bit j of `letters`
/// says that letter j may have been the one.
pub fn round(sheet: &[u8], storage: &mut [u64], record: &mut [u32], letters: u64, answer: &mut [u32]) -> u32 {
    // SAFETY: the library reads the sheet and writes only inside the other slices.
    unsafe {
        ffi::jigwaret_round(
            sheet.as_ptr(),
            sheet.len(),
            storage.as_mut_ptr(),
            storage.len(),
            record.as_mut_ptr(),
            record.len(),
            letters,
            answer.as_mut_ptr(),
            answer.len(),
        )
    }
}

/// Marks the record closed and writes the closing verdicts and the shares into `answer`.
pub fn close(sheet: &[u8], storage: &[u64], record: &mut [u32], answer: &mut [u32]) -> u32 {
    // SAFETY: the library reads the sheet and the storage and writes only inside the other slices.
    unsafe {
        ffi::jigwaret_close(
            sheet.as_ptr(),
            sheet.len(),
            storage.as_ptr(),
            storage.len(),
            record.as_mut_ptr(),
            record.len(),
            answer.as_mut_ptr(),
            answer.len(),
        )
    }
}

/// Writes into `answer[0]` the verdict on all outputs of a set being true together in the last round. Bit k
/// of `outputs` names output k.
pub fn together(sheet: &[u8], storage: &[u64], record: &[u32], outputs: u8, answer: &mut [u32]) -> u32 {
    // SAFETY: the library reads the first three slices and writes only inside the last.
    unsafe {
        ffi::jigwaret_together(
            sheet.as_ptr(),
            sheet.len(),
            storage.as_ptr(),
            storage.len(),
            record.as_ptr(),
            record.len(),
            outputs,
            answer.as_mut_ptr(),
            answer.len(),
        )
    }
}

#[cfg(test)]
mod tests {
    use super::*;
    use crate::refusal::Refusal;

    const SHEET: &[u8] = include_bytes!("../../../examples/session/sheet.slr");

    /// What the calls of a journal return for slices of these lengths.
    fn returned(storage: usize, record: usize, answer: usize) -> [u32; 4] {
        let (mut storage, mut record, mut answer) = (vec![5; storage], vec![0; record], vec![5; answer]);
        let numbers = [
            together(SHEET, &storage, &record, 0b11, &mut answer),
            close(SHEET, &storage, &mut record, &mut answer),
            round(SHEET, &mut storage, &mut record, 0b1111, &mut answer),
            prepare(SHEET, &mut storage, &mut record, &mut answer),
        ];
        let untouched = storage.iter().all(|&word| word == 5) && answer.iter().all(|&number| number == 5);
        assert!(untouched && record.iter().all(|&number| number == 0));
        numbers
    }

    #[test]
    fn short_storage() {
        for words in [0, 1, STORAGE_WORDS - 1] {
            assert_eq!(returned(words, RECORD_NUMBERS, ANSWER_NUMBERS), [Refusal::Storage.number(); 4]);
        }
    }

    #[test]
    fn wrong_sizes() {
        let sizes = [
            (RECORD_NUMBERS - 1, ANSWER_NUMBERS),
            (RECORD_NUMBERS + 1, ANSWER_NUMBERS),
            (RECORD_NUMBERS, ANSWER_NUMBERS - 1),
            (0, 0),
        ];
        for (record, answer) in sizes {
            assert_eq!(returned(STORAGE_WORDS, record, answer), [WRONG_SIZES; 4]);
        }
    }

    /// One number of the answer is written, and none if the question is refused.
    #[test]
    fn answers_about_sets() {
        let (mut storage, mut record, mut answer) = (vec![5; STORAGE_WORDS], vec![5; RECORD_NUMBERS], vec![5; 20]);
        assert_eq!(prepare(SHEET, &mut storage, &mut record, &mut answer), ACCEPTED);
        answer.fill(5);
        assert_eq!(together(SHEET, &storage, &record, 0b11, &mut answer), Refusal::NoRound.number());
        assert_eq!(together(SHEET, &storage, &record, 0b100, &mut answer), Refusal::OutputSet.number());
        assert_eq!(answer, [5; 20]);
        assert_eq!(round(SHEET, &mut storage, &mut record, 0b0010, &mut answer), ACCEPTED);
        assert_eq!(answer[..3], [2, 1, 5]);
        answer.fill(5);
        assert_eq!(together(SHEET, &storage, &record, 0b11, &mut answer), ACCEPTED);
        assert_eq!((answer[0], &answer[1..]), (2, &[5; 19][..]));
    }

    #[test]
    fn refused_masks_leave_the_set() {
        let mut set = 5;
        assert_eq!(letters(0, 0, 0, &mut set), Refusal::Counts.number());
        assert_eq!(letters(6, 64, 0, &mut set), Refusal::Letter.number());
        assert_eq!(set, 5);
        assert_eq!((letters(1, 1, 1, &mut set), set), (ACCEPTED, 0b10));
    }
}

//! Calls made of the library and of the outside entries, compared in all that they return, are lent or are
//! handed in.

use crate::journal::{self, Answer, Book, Call, Held};
use crate::monitor::Monitor;
use crate::{hex, library};

/// A sheet, and the outside monitor for it.
pub struct Subject {
    pub sheet: Vec<u8>,
    pub monitor: Result<Monitor, u32>,
}

impl Subject {
    pub fn new(sheet: Vec<u8>) -> Subject {
        let monitor = Monitor::new(&sheet);
        Subject { sheet, monitor }
    }

    pub fn accepted(&self) -> &Monitor {
        self.monitor.as_ref().expect("an accepted sheet")
    }

    /// Makes a call on both sides and compares the number and all that was lent or handed in. What
    /// the library left goes into `held`. Returns the number.
    pub fn agree(&self, held: &mut Held, made: Call) -> u32 {
        let before = held.record.clone();
        let told = || format!("{made:?} with record {before:?}, sheet {}", hex(&self.sheet));
        let mut expected = held.clone();
        let number = journal::call(&self.monitor, &mut expected, made);
        assert_eq!(library::call(&self.sheet, held, made), number, "{}", told());
        assert_eq!(held.answer, expected.answer, "answer, {number}: {}", told());
        assert_eq!(held.record, expected.record, "record, {number}: {}", told());
        if held.storage != expected.storage {
            let word = (0..held.storage.len()).find(|&word| held.storage[word] != expected.storage[word]).unwrap();
            let (found, wanted) = (held.storage[word], expected.storage[word]);
            panic!("storage, {number}: word {word} is {found:#x}, not {wanted:#x}: {}", told());
        }
        number
    }
}

/// A journal kept by the library, by the outside entries and by the book.
pub struct Kept<'a> {
    pub subject: &'a Subject,
    pub book: Book<'a>,
    pub held: Held,
}

impl<'a> Kept<'a> {
    /// Prepares storage with these contents.
    pub fn new(subject: &'a Subject, mut held: Held) -> Kept<'a> {
        assert_eq!(subject.agree(&mut held, Call::Prepare), 0);
        assert_eq!(held.record, [0; 30]);
        let found = subject.accepted();
        assert_eq!(held.answer[..2], [found.live.count() as u32, found.reach as u32]);
        Kept { subject, book: Book::new(subject.accepted()), held }
    }

    pub fn outputs(&self) -> usize {
        self.book.counts.len()
    }

    /// A call whose answer and record are the book's. Returns the number.
    pub fn agree(&mut self, made: Call) -> u32 {
        let number = self.subject.agree(&mut self.held, made);
        let answer = match made {
            Call::Round(letters) => self.book.round(letters).map(numbers),
            Call::Together(outputs) => self.book.together(outputs).map(|verdict| vec![verdict as u32]),
            _ => self.book.close().map(numbers),
        };
        let told = || format!("{made:?} after {:?}, sheet {}", self.book.rounds, hex(&self.subject.sheet));
        assert_eq!(number, answer.as_ref().err().copied().unwrap_or(0), "{}", told());
        if let Ok(numbers) = answer {
            assert_eq!(self.held.answer[..numbers.len()], numbers, "{}", told());
        }
        let mut record = vec![self.book.rounds.len() as u32, self.book.closed as u32];
        record.extend(self.book.counts.iter().flatten());
        record.resize(30, 0);
        assert_eq!(self.held.record, record, "{}", told());
        number
    }

    /// The verdicts of the last answer as the journal program prints them.
    pub fn printed(&self) -> String {
        let marks = ['0', '1', '?', '!'];
        self.held.answer[..self.outputs()].iter().map(|&verdict| marks[verdict as usize]).collect()
    }
}

/// An answer as it is written.
fn numbers(answer: Answer) -> Vec<u32> {
    answer.verdicts.iter().map(|&verdict| verdict as u32).chain(answer.shares).collect()
}

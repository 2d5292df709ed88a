//! Verdicts on the journals of electronic shelf labels: a safe interface to the proved library.
//!
//! A [`Sheet`] names inputs and defines outputs over them. A [`Journal`] takes rounds, each the
//! [`LetterSet`] of what it may have been, and answers with a [`Verdict`] on every output. What was
//! [`Heard`] input by input makes such a set. [`Journal::together`] tells whether several outputs are true
//! together.
//!
//! ```
//! use jigwaret::{Heard, Journal, Sheet, Verdict};
//!
//! // Input 0 is "sent", input 1 "acknowledged".
//! let sheet = Sheet::new([
//!     0x53, 0x4C, 0x52, 0x01, 0x00, 0x02, 0x02, 0x01, // two inputs, two outputs, output 1 is assumed
//!     0x06, 0x40, 0x02, 0x41, 0x04, 0x61, 0x04, // what is sent is acknowledged now or in the next round
//!     0x06, 0x41, 0x02, 0x40, 0x04, 0x50, 0x04, // what is acknowledged was sent now or one round earlier
//! ])?;
//! let sent = sheet.letters(Heard::nothing().with(0, true).with(1, false))?;
//! let acknowledged = sheet.letters(Heard::nothing().with(1, true))?;
//! let neither = sheet.letters(Heard::nothing().with(0, false).with(1, false))?;
//! let both = sheet.letters(Heard::nothing().with(0, true).with(1, true))?;
//! let mut journal = Journal::prepare(sheet)?;
//!
//! // Sent, and not acknowledged: the next round decides. There, only the acknowledgement was heard.
//! assert_eq!(journal.round(sent)?, [Verdict::Open, Verdict::True]);
//! assert_eq!(journal.round(acknowledged)?, [Verdict::True, Verdict::True]);
//! // Neither or both, and not known which.
//! assert_eq!(journal.round(neither | both)?, [Verdict::True, Verdict::True]);
//!
//! let closing = journal.close()?;
//! assert_eq!(closing.verdicts.to_string(), "11");
//! assert_eq!(closing.shares, [667, 1000]);
//! # Ok::<(), jigwaret::Refusal>(())
//! ```

#![deny(unsafe_code)]
#![forbid(unsafe_op_in_unsafe_fn)]
#![warn(missing_docs)]

#[allow(unsafe_code)]
pub mod raw;

mod heard;
mod journal;
mod letters;
mod number;
mod refusal;
mod sheet;
mod verdict;

pub use heard::Heard;
pub use journal::{Closing, Counts, Journal};
pub use letters::LetterSet;
pub use number::UnknownNumber;
pub use refusal::Refusal;
pub use sheet::{check, evaluate, Sheet};
pub use verdict::{Verdict, Verdicts};

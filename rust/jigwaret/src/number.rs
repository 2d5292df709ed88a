//! Numbers of verdicts and refusals that come from outside.

use std::error::Error;
use std::fmt;

/// A number that no verdict, or no refusal, has.
#[derive(Clone, Copy, Debug, PartialEq, Eq, Hash)]
pub struct UnknownNumber(pub u32);

impl fmt::Display for UnknownNumber {
    fn fmt(&self, out: &mut fmt::Formatter) -> fmt::Result {
        write!(out, "nothing has the number {}", self.0)
    }
}

impl Error for UnknownNumber {}

//! The algorithm of the proved library, without a proof and written for speed: sets of pairs in
//! words of 64 lanes, groups by the streams that are read one round earlier, and no more words than
//! 2^(m + n) valuations need.

pub mod circular;
pub mod entries;
pub mod lanes;
pub mod letters;
pub mod sets;
pub mod sheet;
pub mod trace;

#[cfg(test)]
mod tests;

pub use sheet::Sheet;

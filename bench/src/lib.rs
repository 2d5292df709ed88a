//! A monitor of the same algorithm as the proved library, without a proof and written for speed, a
//! straightforward one, and what is needed to time these and the library on the same inputs.

pub mod fast;
pub mod growth;
pub mod lines;
pub mod measure;
pub mod program;
pub mod report;
pub mod straightforward;
pub mod timing;
pub mod workloads;

//! The published index, unchanged, and what it is compared by.
#![allow(dead_code)]
pub mod answers;
#[cfg(feature = "calls")]
pub mod fenced;
pub mod index;
pub mod level;
#[cfg(feature = "calls")]
pub mod linked;
pub mod making;
pub mod model;
pub mod number;
pub mod published;
pub mod random;
pub mod recording;
pub mod sink;
#[cfg(feature = "parts")]
pub mod bench_parts;
#[cfg(feature = "parts")]
pub mod benching;

//! The proved classifier as safe Rust, and classifiers in Rust that it is timed beside.

pub mod classifiers;

// Left out of tests, which are so built without the archive.
#[cfg(not(test))]
mod proved;
#[cfg(not(test))]
pub use self::proved::{classify, classify_all, length};

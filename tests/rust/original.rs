//! The root of the crate that the original is built as, for the comparison.
pub mod unicorn;

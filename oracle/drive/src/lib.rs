//! Compares document 01's reference with sled, and script programs with both.

#![forbid(unsafe_code)]

pub mod bad_lines;
pub mod compare;
pub mod fixed;
pub mod lines;
pub mod part;
pub mod program;
pub mod record;
pub mod scripts;
pub mod shrink;
pub mod sled_calls;
pub mod slips;
pub mod walk;

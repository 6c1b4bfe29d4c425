//! Calls of document 01 below the script's level, made from a seed, and the
//! reference's answers to them in words.

#![forbid(unsafe_code)]

pub mod answer;
pub mod call;
pub mod keys;
pub mod make;
pub mod words;

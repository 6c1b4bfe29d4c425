//! The functions that crate `exports` gives to Rust and C, run beside the
//! reference: every answer and every lent byte is compared.

#![deny(unsafe_code)]

// Where `exports` finds `Header`.
use reference::buffers;

/// Bytes of stack that a call has.
pub const STACK: usize = 256 * 1_024;

pub mod cases;
pub mod compare;
pub mod creations;
pub mod damages;
#[allow(unsafe_code)]
#[path = "../../../clients/olybzhan/src/ffi.rs"]
pub mod exports;
#[cfg(feature = "fenced")]
mod fenced;
pub mod fresh;
pub mod history;
#[cfg(not(feature = "fenced"))]
mod near;
mod outputs;
mod parts;
mod readers;
pub mod reading;
pub mod reads;
pub mod session;
pub mod sides;
pub mod tally;
pub mod times;
mod writers;
pub mod writes;
pub mod writing;

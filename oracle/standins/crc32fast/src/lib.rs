//! Stands for crc32fast: the sum in `Tree::checksum`.
//!
//! Assumes: nobody asks for the checksum, so a call panics.
#![forbid(unsafe_code)]

#[derive(Default)]
pub struct Hasher;

impl Hasher {
    pub fn new() -> Hasher {
        unreachable!("checksum is left out")
    }

    pub fn update(&mut self, _: &[u8]) {
        unreachable!("checksum is left out")
    }

    pub fn finalize(self) -> u32 {
        unreachable!("checksum is left out")
    }
}

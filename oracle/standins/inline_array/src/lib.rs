//! Stands for inline-array: an immutable byte string, here a vector.
//!
//! Assumes: order and equality are those of byte slices, the least is empty.
#![forbid(unsafe_code)]

use std::borrow::Borrow;
use std::ops::Deref;

#[derive(Clone, Debug, Default, Eq, PartialOrd, Ord)]
pub struct InlineArray(Vec<u8>);

impl concurrent_map::Minimum for InlineArray {
    const MIN: InlineArray = InlineArray(Vec::new());
}

impl Deref for InlineArray {
    type Target = [u8];

    fn deref(&self) -> &[u8] {
        &self.0
    }
}

impl AsRef<[u8]> for InlineArray {
    fn as_ref(&self) -> &[u8] {
        &self.0
    }
}

impl Borrow<[u8]> for InlineArray {
    fn borrow(&self) -> &[u8] {
        &self.0
    }
}

impl From<&[u8]> for InlineArray {
    fn from(bytes: &[u8]) -> InlineArray {
        InlineArray(bytes.to_vec())
    }
}

impl From<Vec<u8>> for InlineArray {
    fn from(bytes: Vec<u8>) -> InlineArray {
        InlineArray(bytes)
    }
}

// sled compares with `&InlineArray` too, so equality takes all byte strings.
impl<T: AsRef<[u8]>> PartialEq<T> for InlineArray {
    fn eq(&self, other: &T) -> bool {
        self.0 == other.as_ref()
    }
}

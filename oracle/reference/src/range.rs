//! A range is a record of two bound kinds; the bound keys are lent beside it.

use std::ops;

#[derive(Clone, Copy, Debug, PartialEq, Eq)]
pub enum Bound {
    Included,
    Excluded,
    Open,
}

#[derive(Clone, Copy, Debug, PartialEq, Eq)]
pub struct Range {
    pub start: Bound,
    pub end: Bound,
}

impl Bound {
    /// The key beside an open bound is not read: any will do.
    pub fn key(self, beside: &[u8]) -> &[u8] {
        match self {
            Bound::Included | Bound::Excluded => beside,
            Bound::Open => &[],
        }
    }

    /// The same bound in the standard library's form.
    pub fn standard(self, beside: &[u8]) -> ops::Bound<&[u8]> {
        match self {
            Bound::Included => ops::Bound::Included(beside),
            Bound::Excluded => ops::Bound::Excluded(beside),
            Bound::Open => ops::Bound::Unbounded,
        }
    }
}

impl Range {
    pub fn new(start: Bound, end: Bound) -> Range {
        Range { start, end }
    }

    pub fn above_start(self, start: &[u8], key: &[u8]) -> bool {
        match self.start {
            Bound::Included => start <= key,
            Bound::Excluded => start < key,
            Bound::Open => true,
        }
    }

    pub fn below_end(self, end: &[u8], key: &[u8]) -> bool {
        match self.end {
            Bound::Included => key <= end,
            Bound::Excluded => key < end,
            Bound::Open => true,
        }
    }

    /// Whether the start key is above the end key, where both are read.
    pub fn inverted(self, start: &[u8], end: &[u8]) -> bool {
        self.start != Bound::Open && self.end != Bound::Open && start > end
    }
}

/// The excluded end of all keys that begin with `prefix`; none is an open end.
pub fn prefix_end(prefix: &[u8]) -> Option<Vec<u8>> {
    let mut end = prefix.to_vec();
    while end.last() == Some(&0xff) {
        end.pop();
    }
    *end.last_mut()? += 1;
    Some(end)
}

use crate::buffers::{Buffers, Owned};
use crate::ffi::{EXCLUDED, INCLUDED, OPEN};
use crate::{Error, Index, KEY_LIMIT, Pair, calls};
use alloc::vec::Vec;
use core::iter::FusedIterator;
use core::ops::{Bound, RangeBounds};

/// The pairs of a range, in key order: what [`Index::range`],
/// [`Index::scan_prefix`] and [`Index::iter`] give. Nothing follows an error.
pub struct Range<'a, B = Owned> {
    index: &'a Index<B>,
    /// The bounds of what is left, or why there is nothing.
    left: Result<[Edge; 2], Option<Error>>,
}

/// A bound: its kind, and its key where it isn't open.
struct Edge {
    kind: usize,
    key: Vec<u8>,
}

impl<'a, B: Buffers> Range<'a, B> {
    pub(crate) fn new<K: AsRef<[u8]> + ?Sized>(
        index: &'a Index<B>,
        range: impl RangeBounds<K>,
    ) -> Range<'a, B> {
        let left = Ok([Edge::of(range.start_bound()), Edge::of(range.end_bound())]);
        Range { index, left }
    }

    pub(crate) fn of_prefix(index: &'a Index<B>, prefix: &[u8]) -> Range<'a, B> {
        // An end is no longer than its prefix.
        let mut end = [0; KEY_LIMIT];
        let span = calls::scan_prefix(prefix, &mut end);
        let left = match Error::check(span.refusal, span.length) {
            Ok(()) => Ok([
                Edge::new(span.start, prefix),
                Edge::new(span.end, &end[..span.end_length]),
            ]),
            Err(error) => Err(Some(error)),
        };
        Range { index, left }
    }
}

impl Edge {
    fn new(kind: usize, key: &[u8]) -> Edge {
        let key = key.to_vec();
        Edge { kind, key }
    }

    fn of<K: AsRef<[u8]> + ?Sized>(bound: Bound<&K>) -> Edge {
        match bound {
            Bound::Included(key) => Edge::new(INCLUDED, key.as_ref()),
            Bound::Excluded(key) => Edge::new(EXCLUDED, key.as_ref()),
            Bound::Unbounded => Edge::new(OPEN, &[]),
        }
    }

    fn lent(&self) -> (usize, &[u8]) {
        (self.kind, &self.key)
    }
}

impl<'a, B: Buffers> Iterator for Range<'a, B> {
    type Item = Result<Pair<'a>, Error>;

    fn next(&mut self) -> Option<Result<Pair<'a>, Error>> {
        let [start, end] = match &mut self.left {
            Ok(left) => left,
            Err(error) => return error.take().map(Err),
        };
        let found = self.index.first_in_range(start.lent(), end.lent());
        match found {
            // The rest begins behind this key.
            Ok(Some((ref key, _))) => *start = Edge::new(EXCLUDED, key),
            _ => self.left = Err(None),
        }
        found.transpose()
    }
}

impl<B: Buffers> FusedIterator for Range<'_, B> {}

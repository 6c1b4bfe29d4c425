//! The two sides of a reading call.

use crate::exports::{EXCLUDED, INCLUDED, OPEN, Place, Scanned, Shown, Span, Told};
use crate::reads::{Read, Reader, Reading};
use crate::sides::{Archive, Reference, archive, number};
use reference::buffers::{Buffers, Header};
use reference::index::scan_prefix;
use reference::opened::{self, FoundAt, Opened, ShownAt};
use reference::range::{Bound, Range};
use reference::refusal::Refusal;

impl Reader for Archive {
    fn read(&self, read: Read, header: Header, lent: &mut Buffers, out: &mut [u8]) -> Reading {
        archive::read(read, header, lent, out)
    }
}

impl Reader for Reference {
    fn read(&self, read: Read, header: Header, lent: &mut Buffers, out: &mut [u8]) -> Reading {
        right(&Opened::open(&header, lent), read, out)
    }
}

/// The reference's answer on buffers that were opened, or were refused.
pub fn right(opened: &Result<Opened, Refusal>, read: Read, out: &mut [u8]) -> Reading {
    let opened = opened.as_ref().map_err(|refusal| *refusal);
    match read {
        Read::ContainsKey(key) => {
            Reading::Told(held(opened.and_then(|it| it.index().contains_key(key))))
        }
        Read::Get(key) => Reading::Place(place(opened.and_then(|it| it.get(key)))),
        Read::FirstInRange([start_kind, end_kind], start, end) => {
            let range = Range::new(bound(start_kind), bound(end_kind));
            let found = opened.and_then(|it| it.first_in_range(range, start, end, out));
            Reading::Scanned(scanned(found))
        }
        Read::GetGt(key) => Reading::Scanned(scanned(opened.and_then(|it| it.get_gt(key, out)))),
        Read::First => Reading::Scanned(scanned(opened.and_then(|it| it.first(out)))),
        Read::ScanPrefix(prefix) => Reading::Span(span(scan_prefix(prefix, out))),
        Read::LeafAt(at) => Reading::Shown(shown(opened.map(|it| it.leaf_at(at)))),
    }
}

fn bound(kind: usize) -> Bound {
    match kind {
        INCLUDED => Bound::Included,
        EXCLUDED => Bound::Excluded,
        _ => Bound::Open,
    }
}

fn kind(bound: Bound) -> usize {
    match bound {
        Bound::Included => INCLUDED,
        Bound::Excluded => EXCLUDED,
        Bound::Open => OPEN,
    }
}

/// Only refusal 5 returns a length.
pub(crate) fn needed(refusal: Refusal) -> usize {
    match refusal {
        Refusal::ShortOutput(needed) => needed,
        _ => 0,
    }
}

fn held(answer: Result<bool, Refusal>) -> Told {
    let refusal = answer.err().map_or(0, number);
    let length = usize::from(answer == Ok(true));
    Told { refusal, length }
}

fn place(answer: Result<Option<opened::Place>, Refusal>) -> Place {
    match answer {
        Ok(Some(value)) => Place {
            refusal: 0,
            found: 1,
            offset: value.offset,
            length: value.length,
        },
        Ok(None) => Place::default(),
        Err(refusal) => Place {
            refusal: number(refusal),
            ..Place::default()
        },
    }
}

fn scanned(answer: Result<Option<FoundAt>, Refusal>) -> Scanned {
    match answer {
        Ok(Some(pair)) => Scanned {
            refusal: 0,
            length: 0,
            found: 1,
            key: pair.key_length,
            offset: pair.value.offset,
            value: pair.value.length,
        },
        Ok(None) => Scanned::default(),
        Err(refusal) => Scanned {
            refusal: number(refusal),
            length: needed(refusal),
            ..Scanned::default()
        },
    }
}

fn span(answer: Result<(Range, usize), Refusal>) -> Span {
    match answer {
        Ok((range, end_length)) => Span {
            refusal: 0,
            length: 0,
            start: kind(range.start),
            end: kind(range.end),
            end_length,
        },
        Err(refusal) => Span {
            refusal: number(refusal),
            length: needed(refusal),
            ..Span::default()
        },
    }
}

fn shown(answer: Result<Option<ShownAt>, Refusal>) -> Shown {
    match answer {
        Ok(Some(leaf)) => Shown {
            refusal: 0,
            found: 1,
            low_offset: leaf.low.offset,
            low_length: leaf.low.length,
            has_upper: usize::from(leaf.upper.is_some()),
            upper_offset: leaf.upper.map_or(0, |upper| upper.offset),
            upper_length: leaf.upper.map_or(0, |upper| upper.length),
            prefix_length: leaf.prefix_length,
            pairs: leaf.pairs,
        },
        Ok(None) => Shown::default(),
        Err(refusal) => Shown {
            refusal: number(refusal),
            ..Shown::default()
        },
    }
}

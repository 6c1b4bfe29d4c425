//! The reading calls: they look up, scan and show, and change nothing that is
//! lent but an output.

use crate::exports::{EXCLUDED, INCLUDED, Place, Scanned, Shown, Span, Told};
use reference::buffers::{Buffers, Header};
use std::fmt;

#[derive(Clone, Copy, PartialEq, Eq)]
pub enum Read<'a> {
    ContainsKey(&'a [u8]),
    Get(&'a [u8]),
    /// The kinds of start and end, then the keys beside them.
    FirstInRange([usize; 2], &'a [u8], &'a [u8]),
    GetGt(&'a [u8]),
    First,
    /// Takes no index.
    ScanPrefix(&'a [u8]),
    LeafAt(usize),
}

#[derive(Clone, Copy, Debug, PartialEq, Eq)]
pub enum Reading {
    Told(Told),
    Place(Place),
    Scanned(Scanned),
    Span(Span),
    Shown(Shown),
}

/// Lent to a call that takes none.
pub(crate) fn no_index() -> (Header, Buffers) {
    let header = Header {
        fanout: 0,
        leaves: 0,
        pairs: 0,
        charge: 0,
    };
    let (dir, slots, arena) = (Vec::new(), Vec::new(), Vec::new());
    (header, Buffers { dir, slots, arena })
}

/// Answers a reading call, and leaves the buffers and the output as the call
/// leaves them.
pub trait Reader {
    fn read(&self, read: Read, header: Header, lent: &mut Buffers, out: &mut [u8]) -> Reading;
}

impl Read<'_> {
    pub fn name(self) -> &'static str {
        match self {
            Read::ContainsKey(_) => "contains_key",
            Read::Get(_) => "get",
            Read::FirstInRange(..) => "first_in_range",
            Read::GetGt(_) => "get_gt",
            Read::First => "first",
            Read::ScanPrefix(_) => "scan_prefix",
            Read::LeafAt(_) => "leaf_at",
        }
    }
}

/// Keys in document 01's form, long ones cut: the seed gives them whole.
impl fmt::Debug for Read<'_> {
    fn fmt(&self, to: &mut fmt::Formatter) -> fmt::Result {
        let name = self.name();
        match *self {
            Read::First => to.write_str(name),
            Read::LeafAt(at) => write!(to, "{name} {at}"),
            Read::ContainsKey(key) | Read::Get(key) | Read::GetGt(key) | Read::ScanPrefix(key) => {
                write!(to, "{name} {}", short(key))
            }
            Read::FirstInRange(kinds, start, end) => {
                let [start_kind, end_kind] = kinds.map(kind);
                let (start, end) = (short(start), short(end));
                write!(to, "{name} from {start} {start_kind} to {end} {end_kind}")
            }
        }
    }
}

fn kind(number: usize) -> String {
    match number {
        INCLUDED => "included".to_string(),
        EXCLUDED => "excluded".to_string(),
        other => format!("open ({other})"),
    }
}

pub(crate) fn short(key: &[u8]) -> String {
    const SHOWN: usize = 32;
    match key.len() {
        0..=SHOWN => hex(key),
        length => format!("{}.. ({length} bytes)", hex(&key[..SHOWN])),
    }
}

pub(crate) fn hex(bytes: &[u8]) -> String {
    if bytes.is_empty() {
        return "-".to_string();
    }
    bytes.iter().map(|byte| format!("{byte:02x}")).collect()
}

impl Reading {
    pub fn refusal(&self) -> usize {
        match self {
            Reading::Told(told) => told.refusal,
            Reading::Place(place) => place.refusal,
            Reading::Scanned(scan) => scan.refusal,
            Reading::Span(span) => span.refusal,
            Reading::Shown(shown) => shown.refusal,
        }
    }

    /// Whether a key, a pair, a range or a leaf was found.
    pub fn found(&self) -> bool {
        match self {
            Reading::Told(told) => told.length == 1,
            Reading::Place(place) => place.found == 1,
            Reading::Scanned(scan) => scan.found == 1,
            Reading::Span(span) => span.refusal == 0,
            Reading::Shown(shown) => shown.found == 1,
        }
    }

    /// For the tally.
    pub fn outcome(&self) -> &'static str {
        match self.refusal() {
            0 if self.found() => "found",
            0 => "none",
            2 => "refused 2",
            3 => "refused 3",
            5 => "refused 5",
            6 => "refused 6",
            _ => "refused",
        }
    }
}

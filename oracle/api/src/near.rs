//! Safe calls of the archive's functions, in this process.

#![allow(unsafe_code)]

use crate::exports::*;
use crate::reads::{Read, Reading};
use crate::times::{Changes, Series};
use crate::writes::Write;
use reference::buffers::{Buffers, Header};
use std::hint::black_box;
use std::sync::atomic::{AtomicUsize, Ordering};
use std::time::{Duration, Instant};

// Safe: none of the functions requires anything of its caller but slices, and
// each slice here is a live one with its own length.

pub fn holds_index(header: Header, lent: &Buffers) -> bool {
    read!(olybzhan_holds_index_by_value, header, parts(lent))
}

pub fn create(fanout: usize, lent: &mut Buffers) -> Reply {
    change!(olybzhan_create_by_value, fanout, parts_mut(lent), as_ptr)
}

pub fn clear(mut header: Header, lent: &mut Buffers) -> Reply {
    if !in_place() {
        return change!(olybzhan_clear_by_value, header, parts_mut(lent), as_ptr);
    }
    let told = change!(olybzhan_clear, &mut header, parts_mut(lent), as_ptr);
    Reply {
        refusal: told.refusal,
        length: told.length,
        header,
    }
}

pub fn len(header: Header, lent: &Buffers) -> Told {
    read!(olybzhan_len_by_value, header, parts(lent))
}

fn parts(lent: &Buffers) -> (&[u32], &[u64], &[u8]) {
    (&lent.dir, &lent.slots, &lent.arena)
}

fn parts_mut(lent: &mut Buffers) -> (&mut [u32], &mut [u64], &mut [u8]) {
    (&mut lent.dir, &mut lent.slots, &mut lent.arena)
}

/// Whether the next changing call lends its header: every other one does.
fn in_place() -> bool {
    static CALLS: AtomicUsize = AtomicUsize::new(0);
    CALLS.fetch_add(1, Ordering::Relaxed) % 2 == 1
}

pub fn write(write: Write, header: Header, lent: &mut Buffers, out: &mut [u8]) -> OldReply {
    if in_place() {
        write_in_place(write, header, lent, out)
    } else {
        write_by_value(write, header, lent, out)
    }
}

/// By the one or the other of two functions.
macro_rules! insert_or_remove {
    ($write:expr, $insert:ident, $remove:ident, $header:expr, $lent:expr, $out:expr) => {{
        let (buffers, out) = (parts_mut($lent), $out);
        match $write {
            Write::Insert(key, value) => {
                change!($insert, $header, buffers, as_mut_ptr, reads[key, value], writes[out])
            }
            Write::Remove(key) => {
                change!($remove, $header, buffers, as_mut_ptr, reads[key], writes[out])
            }
        }
    }};
}

fn write_in_place(
    write: Write,
    mut header: Header,
    lent: &mut Buffers,
    out: &mut [u8],
) -> OldReply {
    let part = insert_or_remove!(
        write,
        olybzhan_insert,
        olybzhan_remove,
        &mut header,
        lent,
        out
    );
    OldReply {
        refusal: part.refusal,
        length: part.length,
        found: part.found,
        header,
    }
}

fn write_by_value(write: Write, header: Header, lent: &mut Buffers, out: &mut [u8]) -> OldReply {
    insert_or_remove!(
        write,
        olybzhan_insert_by_value,
        olybzhan_remove_by_value,
        header,
        lent,
        out
    )
}

pub fn read(read: Read, header: Header, lent: &Buffers, out: &mut [u8]) -> Reading {
    let buffers = parts(lent);
    match read {
        Read::ContainsKey(key) => Reading::Told(read!(
            olybzhan_contains_key_by_value,
            header,
            buffers,
            reads[key]
        )),
        Read::Get(key) => Reading::Place(read!(olybzhan_get_by_value, header, buffers, reads[key])),
        Read::FirstInRange([start_kind, end_kind], start, end) => Reading::Scanned(read!(
            olybzhan_first_in_range_by_value,
            header,
            buffers,
            numbers[start_kind, end_kind],
            reads[start, end],
            writes[out]
        )),
        Read::GetGt(key) => Reading::Scanned(read!(
            olybzhan_get_gt_by_value,
            header,
            buffers,
            reads[key],
            writes[out]
        )),
        Read::First => {
            Reading::Scanned(read!(olybzhan_first_by_value, header, buffers, writes[out]))
        }
        Read::ScanPrefix(prefix) => Reading::Span(unsafe {
            olybzhan_scan_prefix(prefix.as_ptr(), prefix.len(), out.as_mut_ptr(), out.len())
        }),
        Read::LeafAt(at) => Reading::Shown(read!(
            olybzhan_leaf_at_by_value,
            header,
            buffers,
            numbers[at]
        )),
    }
}

/// How long so many calls take.
pub fn time_holds_index(header: Header, lent: &Buffers, times: u32) -> Duration {
    let start = Instant::now();
    for _ in 0..times {
        black_box(holds_index(header, lent));
    }
    start.elapsed()
}

/// How long so many calls take.
pub fn time_read(
    asked: Read,
    header: Header,
    lent: &Buffers,
    out: &mut [u8],
    times: u32,
) -> Duration {
    let start = Instant::now();
    for _ in 0..times {
        black_box(read(black_box(asked), header, lent, out));
    }
    start.elapsed()
}

/// Makes changes one by one up to the first that is refused, the test of W
/// timed by itself before each.
pub fn time_changes(
    changes: Changes,
    mut header: Header,
    lent: &mut Buffers,
    out: &mut [u8],
) -> Series {
    let (mut tests, mut calls) = (Duration::ZERO, Duration::ZERO);
    let mut count = 0;
    while count < changes.count() {
        let start = Instant::now();
        black_box(holds_index(header, lent));
        let tested = Instant::now();
        let reply = write_by_value(changes.at(count), header, lent, out);
        calls += tested.elapsed();
        tests += tested - start;
        if reply.refusal != 0 {
            break;
        }
        header = reply.header;
        count += 1;
    }
    Series {
        count,
        header,
        calls,
        tests,
    }
}

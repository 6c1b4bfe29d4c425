//! The archive's functions for safe code: slices in, answers out.

use crate::buffers::{Buffers, Header};
use crate::ffi::*;

pub fn holds_index(header: Header, buffers: &impl Buffers) -> bool {
    read!(olybzhan_holds_index_by_value, header, buffers.parts())
}

pub fn create(fanout: usize, buffers: &mut impl Buffers) -> Reply {
    change!(
        olybzhan_create_by_value,
        fanout,
        buffers.parts_mut(),
        as_ptr
    )
}

pub fn clear(header: Header, buffers: &mut impl Buffers) -> Reply {
    change!(olybzhan_clear_by_value, header, buffers.parts_mut(), as_ptr)
}

pub fn len(header: Header, buffers: &impl Buffers) -> Told {
    read!(olybzhan_len_by_value, header, buffers.parts())
}

pub fn insert(
    header: Header,
    buffers: &mut impl Buffers,
    key: &[u8],
    value: &[u8],
    old: &mut [u8],
) -> OldReply {
    change!(
        olybzhan_insert_by_value,
        header,
        buffers.parts_mut(),
        as_mut_ptr,
        reads[key, value],
        writes[old]
    )
}

pub fn remove(header: Header, buffers: &mut impl Buffers, key: &[u8], old: &mut [u8]) -> OldReply {
    change!(
        olybzhan_remove_by_value,
        header,
        buffers.parts_mut(),
        as_mut_ptr,
        reads[key],
        writes[old]
    )
}

pub fn contains_key(header: Header, buffers: &impl Buffers, key: &[u8]) -> Told {
    read!(
        olybzhan_contains_key_by_value,
        header,
        buffers.parts(),
        reads[key]
    )
}

pub fn get(header: Header, buffers: &impl Buffers, key: &[u8]) -> Place {
    read!(olybzhan_get_by_value, header, buffers.parts(), reads[key])
}

/// The bounds are kinds with keys.
pub fn first_in_range(
    header: Header,
    buffers: &impl Buffers,
    (from, start): (usize, &[u8]),
    (to, end): (usize, &[u8]),
    out: &mut [u8],
) -> Scanned {
    read!(
        olybzhan_first_in_range_by_value,
        header,
        buffers.parts(),
        numbers[from, to],
        reads[start, end],
        writes[out]
    )
}

pub fn get_gt(header: Header, buffers: &impl Buffers, key: &[u8], out: &mut [u8]) -> Scanned {
    read!(
        olybzhan_get_gt_by_value,
        header,
        buffers.parts(),
        reads[key],
        writes[out]
    )
}

pub fn first(header: Header, buffers: &impl Buffers, out: &mut [u8]) -> Scanned {
    read!(
        olybzhan_first_by_value,
        header,
        buffers.parts(),
        writes[out]
    )
}

pub fn leaf_at(header: Header, buffers: &impl Buffers, place: usize) -> Shown {
    read!(
        olybzhan_leaf_at_by_value,
        header,
        buffers.parts(),
        numbers[place]
    )
}

pub fn scan_prefix(prefix: &[u8], out: &mut [u8]) -> Span {
    unsafe { olybzhan_scan_prefix(prefix.as_ptr(), prefix.len(), out.as_mut_ptr(), out.len()) }
}

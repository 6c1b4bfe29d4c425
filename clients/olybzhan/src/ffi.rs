//! The archive's functions and their answers, declared as in
//! `clients/c/olybzhan.h`, which says what each does and wants. All that a Rust
//! program needs is here, but for `Header`: four `usize`, in C's order.
//! `oracle/api` declares them by this file too.
//!
//! A slice is two arguments, its pointer and its length. It can't be declared
//! as a `&[T]`: where one register is left, Rust passes both words on the
//! stack, but the archive takes the pointer from the register.
//!
//! In each answer refusal 0 says that the call was accepted. What an answer
//! doesn't tell is 0.

use crate::buffers::Header;

/// The length is the call's own number.
#[repr(C)]
#[derive(Clone, Copy, Debug, Default, PartialEq, Eq)]
pub struct Told {
    pub refusal: usize,
    pub length: usize,
}

/// The same with the header as it then is.
#[repr(C)]
#[derive(Clone, Copy, Debug, PartialEq, Eq)]
pub struct Reply {
    pub refusal: usize,
    pub length: usize,
    pub header: Header,
}

/// Found 1: the old value's length; it is at the output's front. 0: there was
/// none, and the length is what refusal 5 needs. The header is as it then is.
#[repr(C)]
#[derive(Clone, Copy, Debug, PartialEq, Eq)]
pub struct OldReply {
    pub refusal: usize,
    pub length: usize,
    pub found: usize,
    pub header: Header,
}

/// The same without the header, which is lent.
#[repr(C)]
#[derive(Clone, Copy, Debug, PartialEq, Eq)]
pub struct OldPart {
    pub refusal: usize,
    pub length: usize,
    pub found: usize,
}

/// Found 1: the value's place in the arena. 0: none.
#[repr(C)]
#[derive(Clone, Copy, Debug, Default, PartialEq, Eq)]
pub struct Place {
    pub refusal: usize,
    pub found: usize,
    pub offset: usize,
    pub length: usize,
}

/// Found 1: the key's length in the output, the value's place. 0: the end. The
/// length is what refusal 5 needs.
#[repr(C)]
#[derive(Clone, Copy, Debug, Default, PartialEq, Eq)]
pub struct Scanned {
    pub refusal: usize,
    pub length: usize,
    pub found: usize,
    pub key: usize,
    pub offset: usize,
    pub value: usize,
}

/// The kinds of a range's bounds, and the length of the end in the output. The
/// length is what refusal 5 needs.
#[repr(C)]
#[derive(Clone, Copy, Debug, Default, PartialEq, Eq)]
pub struct Span {
    pub refusal: usize,
    pub length: usize,
    pub start: usize,
    pub end: usize,
    pub end_length: usize,
}

/// Found 1: a leaf, its keys by their places in the arena. 0: none.
#[repr(C)]
#[derive(Clone, Copy, Debug, Default, PartialEq, Eq)]
pub struct Shown {
    pub refusal: usize,
    pub found: usize,
    pub low_offset: usize,
    pub low_length: usize,
    pub has_upper: usize,
    pub upper_offset: usize,
    pub upper_length: usize,
    pub prefix_length: usize,
    pub pairs: usize,
}

/// Kinds of a bound. Every other number is open too.
pub const INCLUDED: usize = 0;
pub const EXCLUDED: usize = 1;
pub const OPEN: usize = 2;

/// Declares functions over an index: what comes first, how directory and slots
/// are lent, how the arena is, and what follows the three buffers.
macro_rules! over_buffers {
    ($(
        $(#[$says:meta])*
        fn $name:ident(
            $first:ident: $kind:ty, $words:tt, $bytes:tt $(, $rest:ident: $type:ty)* $(,)?
        ) -> $answer:ty;
    )*) => {
        unsafe extern "C" {
            $(
                $(#[$says])*
                pub fn $name(
                    $first: $kind,
                    dir: *$words u32,
                    dir_len: usize,
                    slots: *$words u64,
                    slots_len: usize,
                    arena: *$bytes u8,
                    arena_len: usize,
                    $($rest: $type),*
                ) -> $answer;
            )*
        }
    };
}

over_buffers! {
    fn olybzhan_holds_index_by_value(header: Header, const, const) -> bool;

    fn olybzhan_create_by_value(fanout: usize, mut, const) -> Reply;

    fn olybzhan_clear_by_value(header: Header, mut, const) -> Reply;

    fn olybzhan_len_by_value(header: Header, const, const) -> Told;

    fn olybzhan_insert_by_value(
        header: Header, mut, mut,
        key: *const u8, key_len: usize,
        value: *const u8, value_len: usize,
        old_out: *mut u8, old_out_len: usize,
    ) -> OldReply;

    fn olybzhan_remove_by_value(
        header: Header, mut, mut,
        key: *const u8, key_len: usize,
        old_out: *mut u8, old_out_len: usize,
    ) -> OldReply;

    /// The length is 1 where the key is held.
    fn olybzhan_contains_key_by_value(
        header: Header, const, const,
        key: *const u8, key_len: usize,
    ) -> Told;

    fn olybzhan_get_by_value(
        header: Header, const, const,
        key: *const u8, key_len: usize,
    ) -> Place;

    fn olybzhan_first_in_range_by_value(
        header: Header, const, const,
        start_kind: usize, end_kind: usize,
        start: *const u8, start_len: usize,
        end: *const u8, end_len: usize,
        out: *mut u8, out_len: usize,
    ) -> Scanned;

    fn olybzhan_get_gt_by_value(
        header: Header, const, const,
        key: *const u8, key_len: usize,
        out: *mut u8, out_len: usize,
    ) -> Scanned;

    fn olybzhan_first_by_value(
        header: Header, const, const,
        out: *mut u8, out_len: usize,
    ) -> Scanned;

    fn olybzhan_leaf_at_by_value(header: Header, const, const, place: usize) -> Shown;

    /// The header is lent, here and below: as it came where the call is refused.
    fn olybzhan_insert(
        header: *mut Header, mut, mut,
        key: *const u8, key_len: usize,
        value: *const u8, value_len: usize,
        old_out: *mut u8, old_out_len: usize,
    ) -> OldPart;

    fn olybzhan_remove(
        header: *mut Header, mut, mut,
        key: *const u8, key_len: usize,
        old_out: *mut u8, old_out_len: usize,
    ) -> OldPart;

    fn olybzhan_clear(header: *mut Header, mut, const) -> Told;
}

unsafe extern "C" {
    pub fn olybzhan_scan_prefix(
        prefix: *const u8,
        prefix_len: usize,
        end_out: *mut u8,
        end_out_len: usize,
    ) -> Span;
}

// Both are safe for the same reason. The functions ask for slices that are live
// and, where they write, overlap nothing else: that is what `&` and `&mut`
// promise, and each goes with its own length. Of contents they ask nothing.

/// A call that only reads the index: what comes first, the buffers, then numbers,
/// slices that are read and slices that are written.
macro_rules! read {
    (
        $function:ident, $first:expr, $buffers:expr
        $(, numbers[$($number:expr),*])? $(, reads[$($read:expr),*])? $(, writes[$($write:expr),*])?
    ) => {{
        let (dir, slots, arena): (&[u32], &[u64], &[u8]) = $buffers;
        unsafe {
            $function(
                $first,
                dir.as_ptr(),
                dir.len(),
                slots.as_ptr(),
                slots.len(),
                arena.as_ptr(),
                arena.len(),
                $($($number,)*)?
                $($($read.as_ptr(), $read.len(),)*)?
                $($($write.as_mut_ptr(), $write.len(),)*)?
            )
        }
    }};
}

/// A call that changes it. `$arena` is how the arena goes in.
macro_rules! change {
    (
        $function:ident, $first:expr, $buffers:expr, $arena:ident
        $(, reads[$($read:expr),*])? $(, writes[$($write:expr),*])?
    ) => {{
        let (dir, slots, arena): (&mut [u32], &mut [u64], &mut [u8]) = $buffers;
        unsafe {
            $function(
                $first,
                dir.as_mut_ptr(),
                dir.len(),
                slots.as_mut_ptr(),
                slots.len(),
                arena.$arena(),
                arena.len(),
                $($($read.as_ptr(), $read.len(),)*)?
                $($($write.as_mut_ptr(), $write.len(),)*)?
            )
        }
    }};
}

pub(crate) use {change, read};

// The ordered index for C: the functions of libexports.a (`tools/build archive`). "Document 01" is the project's specification.
//
// An index lies in three buffers that the caller owns and lends to each call, and in a header of four counts:
//
//   directory   POOL words of 32 bits           POOL  1 to 4,096 leaves
//   slots       FANOUT x POOL words of 64 bits  FANOUT 3 to 64
//   arena       ARENA bytes                     ARENA 0 to 1,048,576
//
// The lengths are the index's sizes: lend the same ones to every call. Where from the creation on no insert has a key over K bytes, a value
// over V, or leaves more than P pairs, P + 1 leaves and P x (2K + V) bytes of arena are enough: no such insert is refused as 7 or 8. That is
// 4(P + 1) bytes of directory, 8 x FANOUT x (P + 1) of slots and P x (2K + V) of arena: for 1,200 points with K 24 and V 64 at fanout 3
// 4,804, 28,824 and 134,400 bytes. The limits make P at most 4,095 and P x (2K + V) at most 1,048,576; fuller leaves may hold more pairs, but
// that is no promise.
// Nothing is allocated, no state is kept between calls, and every call ends. Between calls the buffers may be moved or copied: no
// pointer is stored in them. Keep the header with them; what it holds is the calls' affair.
//
// What a caller must keep. The functions are proved for arguments that keep this, and nothing is promised for others:
//
// - A slice is two arguments, a pointer and the number of its ELEMENTS. It points to so many live elements, of at most PTRDIFF_MAX bytes.
// - A zero-length slice may have any pointer, NULL too; it isn't looked at.
// - The directory is aligned for uint32_t, the slots for uint64_t.
// - What a call may write (a pointer without const) overlaps nothing else that the same call is lent. So no key or value of `insert` and
//   `remove` lies in the arena, and no output is a key: a scan that goes on from its last key needs that key in a second buffer. Slices
//   that are only read may overlap: `get` takes a key that lies in the arena.
// - All lent memory has been written before, if only by memset: the arena of a creation and outputs too. What was there doesn't matter.
// - Nobody else writes the lent memory during a call, and nobody reads what the call may write. Reading calls may run at the same time.
//
// Damaged buffers or a wrong header are no such matter: each call tests both and refuses them as 2. The test reads the whole index, so a call
// takes longer the more pairs there are. It is of structure (document 01's W): a flipped bit in a value, or in a key that keeps its order,
// passes. Where memory may change by itself, guard it by ECC or a checksum of your own.
//
// A changing call is not atomic: cut off midway (a reset, a loss of power) it leaves buffers that may or may not pass the test. Change a copy
// and swap, or create afresh and insert again; the same helps after a refusal 2.
//
// Each answer has a `refusal`, 0 where the call was accepted. LOOK AT IT FIRST: a refused call has `found` 0 too, and that is not "none". A
// refused call has changed no lent byte, and hands the header back as it came (a creation: all zero). Fields that tell nothing are 0. The
// refusals of each call stand at the call, in the order in which they are tested.
//
// The code is for x86-64 with the System V calling convention. It uses SSE2 and the red zone (128 bytes below the stack pointer), which
// the toolchain can't switch off: call it on a stack that no interrupt handler uses, with the SSE state saved. It takes less than 4,096 bytes
// of stack (docs/SPEED.md). It needs memcpy and memset of the program that it is linked into, and nothing else.

#ifndef OLYBZHAN_H
#define OLYBZHAN_H

#include <stdbool.h>
#include <stddef.h>
#include <stdint.h>

#ifndef __x86_64__
#error "the archive is for x86-64"
#endif

#ifdef __cplusplus
extern "C" {
#endif

// Document 01's refusal numbers.
enum {
    OLYBZHAN_SHAPE = 1,          // a creation outside the sizes above: the caller's mistake
    OLYBZHAN_DAMAGED = 2,        // buffers and header hold no index: wrong ones were lent, or they were changed; see above
    OLYBZHAN_LONG_KEY = 3,       // a key, prefix or bound key over 512 bytes: the caller's mistake
    OLYBZHAN_LONG_VALUE = 4,     // a value over 65,535 bytes: the caller's mistake
    OLYBZHAN_SHORT_OUTPUT = 5,   // the output is too short: lend `length` bytes and call again
    OLYBZHAN_INVERTED_RANGE = 6, // the start key is above the end key: the caller's mistake
    OLYBZHAN_NO_LEAF = 7,        // the insert needs a leaf more than the pool has: sized too small
    OLYBZHAN_NO_ROOM = 8         // the insert needs more bytes than the arena has: sized too small
};

enum {
    OLYBZHAN_KEY_LIMIT = 512,     // an output of so many bytes holds any key and any prefix's end
    OLYBZHAN_VALUE_LIMIT = 65535, // and one of so many any value
    OLYBZHAN_LEAST_FANOUT = 3,
    OLYBZHAN_FANOUT_LIMIT = 64,
    OLYBZHAN_POOL_LIMIT = 4096,
    OLYBZHAN_ARENA_LIMIT = 1048576
};

// The kinds of a range's bound. Every other number is open too.
enum { OLYBZHAN_INCLUDED = 0, OLYBZHAN_EXCLUDED = 1, OLYBZHAN_OPEN = 2 };

struct olybzhan_header {
    size_t fanout, leaves, pairs, charge;
};

struct olybzhan_told {
    size_t refusal;
    size_t length; // the pairs of `len`; 1 or 0 of `contains_key`; else 0
};

struct olybzhan_reply {
    size_t refusal;
    size_t length; // 0
    struct olybzhan_header header;
};

struct olybzhan_old_reply {
    size_t refusal;
    size_t length; // the old value's, or the length needed where the refusal is 5
    size_t found;  // 1 where there was an old value
    struct olybzhan_header header;
};

struct olybzhan_old_part {
    size_t refusal;
    size_t length; // the old value's, or the length needed where the refusal is 5
    size_t found;  // 1 where there was an old value
};

struct olybzhan_place {
    size_t refusal;
    size_t found;          // 1 where the key is held
    size_t offset, length; // its value, in the arena
};

struct olybzhan_scanned {
    size_t refusal;
    size_t length;        // the length needed where the refusal is 5
    size_t found;         // 1 where there is a pair, 0 at the end of the range
    size_t key;           // the length of its key, which stands at the output's front
    size_t offset, value; // its value's place in the arena, and length
};

struct olybzhan_span {
    size_t refusal;
    size_t length;     // the length needed where the refusal is 5
    size_t start, end; // kinds of the bounds
    size_t end_length; // of the end key, which stands at the output's front
};

struct olybzhan_shown {
    size_t refusal;
    size_t found;                                 // 1 where there is such a leaf
    size_t low_offset, low_length;                // its low key, in the arena
    size_t has_upper, upper_offset, upper_length; // 1 where it has an upper key, and that key, in the arena
    size_t prefix_length, pairs;
};

// The header by value: each call gets it, and one that changes the index gives the header that it then has.

// Whether header and buffers hold an index (document 01's W). The same test comes first in every call below that takes a header, so nobody
// has to ask this before.
bool olybzhan_holds_index_by_value(struct olybzhan_header header, const uint32_t *dir, size_t dir_len, const uint64_t *slots,
                                   size_t slots_len, const uint8_t *arena, size_t arena_len);

// Makes a fresh index, whatever the buffers held. Refused as 1, where the lengths don't meet the sizes. Accepted, one word of the directory
// and one of the slots are written; the arena is only measured.
struct olybzhan_reply olybzhan_create_by_value(size_t fanout, uint32_t *dir, size_t dir_len, uint64_t *slots, size_t slots_len,
                                               const uint8_t *arena, size_t arena_len);

// Makes an index fresh again. Refused as 2. Writes as a creation does.
struct olybzhan_reply olybzhan_clear_by_value(struct olybzhan_header header, uint32_t *dir, size_t dir_len, uint64_t *slots,
                                              size_t slots_len, const uint8_t *arena, size_t arena_len);

// The number of pairs, in `length`. Refused as 2.
struct olybzhan_told olybzhan_len_by_value(struct olybzhan_header header, const uint32_t *dir, size_t dir_len, const uint64_t *slots,
                                           size_t slots_len, const uint8_t *arena, size_t arena_len);

// Inserts a pair, or gives a key that has one a new value. Refused as 2, 3, 4, 5, 7, 8. Accepted, the old value, if there was one, stands at
// the front of `old_out`; the bytes behind it are kept. The output need only hold the old value: zero length will do for a new key, and
// 65,535 bytes for any. Bytes may move inside the arena: places from before the call are void. Go on with the answer's header.
struct olybzhan_old_reply olybzhan_insert_by_value(struct olybzhan_header header, uint32_t *dir, size_t dir_len, uint64_t *slots,
                                                   size_t slots_len, uint8_t *arena, size_t arena_len, const uint8_t *key,
                                                   size_t key_len, const uint8_t *value, size_t value_len, uint8_t *old_out,
                                                   size_t old_out_len);

// Removes a key's pair. Refused as 2, 3, 5. Accepted, the old value is put out as by `insert`; where the key has no pair, nothing is
// written. Places from before the call are void. Go on with the answer's header.
struct olybzhan_old_reply olybzhan_remove_by_value(struct olybzhan_header header, uint32_t *dir, size_t dir_len, uint64_t *slots,
                                                   size_t slots_len, uint8_t *arena, size_t arena_len, const uint8_t *key,
                                                   size_t key_len, uint8_t *old_out, size_t old_out_len);

// Whether the key is held: 1 or 0 in `length`. Refused as 2, 3.
struct olybzhan_told olybzhan_contains_key_by_value(struct olybzhan_header header, const uint32_t *dir, size_t dir_len,
                                                    const uint64_t *slots, size_t slots_len, const uint8_t *arena, size_t arena_len,
                                                    const uint8_t *key, size_t key_len);

// Where the key's value lies in the arena, up to the next change. Refused as 2, 3.
struct olybzhan_place olybzhan_get_by_value(struct olybzhan_header header, const uint32_t *dir, size_t dir_len, const uint64_t *slots,
                                            size_t slots_len, const uint8_t *arena, size_t arena_len, const uint8_t *key,
                                            size_t key_len);

// The first pair in a range, or its end. Refused as 2, 3, 6, 5. The key beside an open bound isn't read. Where there is a pair, its key stands
// at the front of `out` and the bytes behind it are kept; at the end nothing is written. An output of 512 bytes is never too short. To go
// on, ask for the range that begins with the last key, excluded, copied out of `out`.
struct olybzhan_scanned olybzhan_first_in_range_by_value(struct olybzhan_header header, const uint32_t *dir, size_t dir_len,
                                                         const uint64_t *slots, size_t slots_len, const uint8_t *arena,
                                                         size_t arena_len, size_t start_kind, size_t end_kind, const uint8_t *start,
                                                         size_t start_len, const uint8_t *end, size_t end_len, uint8_t *out,
                                                         size_t out_len);

// The first pair above a key. Refused as 2, 3, 5. Writes as `first_in_range` does.
struct olybzhan_scanned olybzhan_get_gt_by_value(struct olybzhan_header header, const uint32_t *dir, size_t dir_len,
                                                 const uint64_t *slots, size_t slots_len, const uint8_t *arena, size_t arena_len,
                                                 const uint8_t *key, size_t key_len, uint8_t *out, size_t out_len);

// The first pair of all. Refused as 2, 5. Writes as `first_in_range` does.
struct olybzhan_scanned olybzhan_first_by_value(struct olybzhan_header header, const uint32_t *dir, size_t dir_len,
                                                const uint64_t *slots, size_t slots_len, const uint8_t *arena, size_t arena_len,
                                                uint8_t *out, size_t out_len);

// The range of all keys that begin with a prefix; it takes no index. Refused as 3, 5. The start is the prefix itself, included. The end is
// excluded and stands at the front of `end_out`, or is open, and then nothing is written. An end is never longer than its prefix.
struct olybzhan_span olybzhan_scan_prefix(const uint8_t *prefix, size_t prefix_len, uint8_t *end_out, size_t end_out_len);

// The leaf at a place of the leaf list, in key order from 0. Refused as 2.
struct olybzhan_shown olybzhan_leaf_at_by_value(struct olybzhan_header header, const uint32_t *dir, size_t dir_len,
                                                const uint64_t *slots, size_t slots_len, const uint8_t *arena, size_t arena_len,
                                                size_t place);

// The header lent: the three calls that change an index, with the header changed in place. They do and answer what the calls by value do;
// refused, the header is as it came. Its memory is lent as the buffers are: live, aligned, and overlapping nothing else.

// A new pair, or a new value for a key that has one; the old value goes to the front of `old_out`. Refused as 2, 3, 4, 5, 7, 8.
struct olybzhan_old_part olybzhan_insert(struct olybzhan_header *header, uint32_t *dir, size_t dir_len, uint64_t *slots, size_t slots_len,
                                         uint8_t *arena, size_t arena_len, const uint8_t *key, size_t key_len, const uint8_t *value,
                                         size_t value_len, uint8_t *old_out, size_t old_out_len);

// A key's pair taken out, its value written to the front of `old_out`; where the key has none, nothing is changed. Refused as 2, 3, 5.
struct olybzhan_old_part olybzhan_remove(struct olybzhan_header *header, uint32_t *dir, size_t dir_len, uint64_t *slots, size_t slots_len,
                                         uint8_t *arena, size_t arena_len, const uint8_t *key, size_t key_len, uint8_t *old_out,
                                         size_t old_out_len);

// An index made fresh again. Refused as 2. `length` is 0.
struct olybzhan_told olybzhan_clear(struct olybzhan_header *header, uint32_t *dir, size_t dir_len, uint64_t *slots, size_t slots_len,
                                    const uint8_t *arena, size_t arena_len);

#ifdef __cplusplus
}
#endif

#endif

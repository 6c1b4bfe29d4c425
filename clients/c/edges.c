// What olybzhan.h says of pointers, outputs and refusals, tried. A line for each thing that is otherwise; the last line counts.

#include "olybzhan.h"
#include <stdio.h>
#include <string.h>

enum { FANOUT = 3, POOL = 4, ARENA = 64, LONG = OLYBZHAN_VALUE_LIMIT + 1, UNTOUCHED = 0xee };

// What a call may change.
struct all {
    struct olybzhan_header header;
    uint32_t dir[POOL];
    uint64_t slots[FANOUT * POOL];
    uint8_t arena[ARENA];
    uint8_t out[OLYBZHAN_KEY_LIMIT];
};

static struct all now, before;
static const uint8_t bytes[LONG];
static int checks, faults;

#define CHECK(fact)                                                                                                                            \
    do {                                                                                                                                       \
        checks++;                                                                                                                              \
        if (!(fact)) {                                                                                                                         \
            faults++;                                                                                                                          \
            printf("edges.c:%d: not so: %s\n", __LINE__, #fact);                                                                               \
        }                                                                                                                                      \
    } while (0)

#define LENT now.dir, POOL, now.slots, FANOUT *POOL, now.arena, ARENA

static bool untouched(void) { return memcmp(&now, &before, sizeof now) == 0; }

// The index of document 01's run; the output is filled anew.
static void fresh(void) {
    memset(&now, UNTOUCHED, sizeof now);
    now.header = olybzhan_create_by_value(FANOUT, LENT).header;
    for (uint8_t i = 1; i <= 3; i++) {
        uint8_t key = 0x60 + i;
        now.header = olybzhan_insert_by_value(now.header, LENT, &key, 1, &i, 1, NULL, 0).header;
    }
    before = now;
}

// The smallest index lends three words, and no other byte: every other slice has length 0.
static void empty_slices(void) {
    uint32_t dir[1] = {0};
    uint64_t slots[3] = {0};
    struct olybzhan_reply made = olybzhan_create_by_value(3, dir, 1, slots, 3, NULL, 0);
    CHECK(made.refusal == 0);
    CHECK(olybzhan_holds_index_by_value(made.header, dir, 1, slots, 3, NULL, 0));
    struct olybzhan_old_reply put = olybzhan_insert_by_value(made.header, dir, 1, slots, 3, NULL, 0, NULL, 0, NULL, 0, NULL, 0);
    CHECK(put.refusal == 0 && put.found == 0 && put.header.pairs == 1);
    struct olybzhan_header h = put.header;
    CHECK(olybzhan_len_by_value(h, dir, 1, slots, 3, NULL, 0).length == 1);
    CHECK(olybzhan_contains_key_by_value(h, dir, 1, slots, 3, NULL, 0, NULL, 0).length == 1);
    CHECK(olybzhan_get_by_value(h, dir, 1, slots, 3, NULL, 0, NULL, 0).found == 1);
    CHECK(olybzhan_first_by_value(h, dir, 1, slots, 3, NULL, 0, NULL, 0).found == 1);
    CHECK(olybzhan_get_gt_by_value(h, dir, 1, slots, 3, NULL, 0, NULL, 0, NULL, 0).found == 0);
    CHECK(olybzhan_first_in_range_by_value(h, dir, 1, slots, 3, NULL, 0, OLYBZHAN_INCLUDED, OLYBZHAN_OPEN, NULL, 0, NULL, 0, NULL, 0).found);
    CHECK(olybzhan_leaf_at_by_value(h, dir, 1, slots, 3, NULL, 0, 0).found == 1);
    CHECK(olybzhan_insert_by_value(h, dir, 1, slots, 3, NULL, 0, NULL, 0, bytes, 1, NULL, 0).refusal == OLYBZHAN_NO_ROOM);
    struct olybzhan_old_reply taken = olybzhan_remove_by_value(h, dir, 1, slots, 3, NULL, 0, NULL, 0, NULL, 0);
    CHECK(taken.refusal == 0 && taken.found == 1 && taken.length == 0);
    CHECK(olybzhan_clear_by_value(taken.header, dir, 1, slots, 3, NULL, 0).refusal == 0);
    CHECK(olybzhan_scan_prefix(NULL, 0, NULL, 0).end == OLYBZHAN_OPEN);
    // No buffer at all.
    CHECK(olybzhan_create_by_value(3, NULL, 0, NULL, 0, NULL, 0).refusal == OLYBZHAN_SHAPE);
    CHECK(olybzhan_create_by_value(3, NULL, 0, NULL, 0, NULL, 0).header.fanout == 0);
    CHECK(!olybzhan_holds_index_by_value(h, NULL, 0, NULL, 0, NULL, 0));
    CHECK(olybzhan_len_by_value(h, NULL, 0, NULL, 0, NULL, 0).refusal == OLYBZHAN_DAMAGED);
}

// A refused change, its number and the length with it; the header and every byte are as they were.
static void refused_change(struct olybzhan_old_reply reply, size_t refusal, size_t length) {
    now.header = reply.header;
    CHECK(reply.refusal == refusal && reply.length == length && reply.found == 0);
    CHECK(untouched());
}

static void refused_scan(struct olybzhan_scanned pair, size_t refusal, size_t length) {
    CHECK(pair.refusal == refusal && pair.length == length && pair.found == 0);
    CHECK(untouched());
}

static void refusals(void) {
    fresh();
    struct olybzhan_header h = now.header, wrong = h;
    wrong.charge++;
    refused_change(olybzhan_insert_by_value(h, LENT, bytes, 513, bytes, LONG, NULL, 0), OLYBZHAN_LONG_KEY, 0);
    refused_change(olybzhan_insert_by_value(h, LENT, bytes, 512, bytes, LONG, NULL, 0), OLYBZHAN_LONG_VALUE, 0);
    refused_change(olybzhan_insert_by_value(h, LENT, (const uint8_t *)"b", 1, bytes, 2, NULL, 0), OLYBZHAN_SHORT_OUTPUT, 1);
    refused_change(olybzhan_insert_by_value(h, LENT, bytes, 1, bytes, ARENA, NULL, 0), OLYBZHAN_NO_ROOM, 0);
    refused_change(olybzhan_remove_by_value(h, LENT, bytes, 513, NULL, 0), OLYBZHAN_LONG_KEY, 0);
    refused_change(olybzhan_remove_by_value(h, LENT, (const uint8_t *)"b", 1, NULL, 0), OLYBZHAN_SHORT_OUTPUT, 1);
    refused_scan(olybzhan_first_in_range_by_value(h, LENT, 0, 0, (const uint8_t *)"b", 1, (const uint8_t *)"a", 1, NULL, 0),
                 OLYBZHAN_INVERTED_RANGE, 0);
    refused_scan(olybzhan_first_in_range_by_value(h, LENT, 0, 0, bytes, 513, bytes, 1, NULL, 0), OLYBZHAN_LONG_KEY, 0);
    refused_scan(olybzhan_get_gt_by_value(h, LENT, (const uint8_t *)"a", 1, NULL, 0), OLYBZHAN_SHORT_OUTPUT, 1);
    refused_scan(olybzhan_first_by_value(h, LENT, NULL, 0), OLYBZHAN_SHORT_OUTPUT, 1);
    refused_scan(olybzhan_first_by_value(wrong, LENT, now.out, 1), OLYBZHAN_DAMAGED, 0);
    CHECK(olybzhan_scan_prefix(bytes, 513, NULL, 0).refusal == OLYBZHAN_LONG_KEY);
    CHECK(olybzhan_scan_prefix((const uint8_t *)"ab", 2, NULL, 0).length == 2);
    struct olybzhan_reply cleared = olybzhan_clear_by_value(wrong, LENT);
    CHECK(cleared.refusal == OLYBZHAN_DAMAGED && memcmp(&cleared.header, &wrong, sizeof wrong) == 0);
    CHECK(olybzhan_create_by_value(2, LENT).refusal == OLYBZHAN_SHAPE);
    CHECK(untouched());
    // Filled up to the last leaf.
    for (uint8_t key = 0x64; key <= 0x68; key++)
        now.header = olybzhan_insert_by_value(now.header, LENT, &key, 1, NULL, 0, NULL, 0).header;
    before = now;
    refused_change(olybzhan_insert_by_value(now.header, LENT, (const uint8_t *)"z", 1, NULL, 0, NULL, 0), OLYBZHAN_NO_LEAF, 0);
}

static void outputs(void) {
    fresh();
    struct olybzhan_scanned pair = olybzhan_first_by_value(now.header, LENT, now.out, sizeof now.out);
    CHECK(pair.found && pair.key == 1 && now.out[0] == 0x61 && now.out[1] == UNTOUCHED);
    CHECK(olybzhan_scan_prefix((const uint8_t *)"a\xff", 2, now.out, 3).end_length == 1);
    CHECK(now.out[0] == 'b' && now.out[1] == UNTOUCHED);
    struct olybzhan_old_reply old = olybzhan_insert_by_value(now.header, LENT, (const uint8_t *)"b", 1, bytes, 4, now.out, 4);
    now.header = old.header;
    CHECK(old.found && old.length == 1 && now.out[0] == 2 && now.out[1] == UNTOUCHED);
    old = olybzhan_remove_by_value(now.header, LENT, (const uint8_t *)"c", 1, now.out, 4);
    now.header = old.header;
    CHECK(old.found && old.length == 1 && now.out[0] == 3 && now.out[1] == UNTOUCHED);
    before = now;
    old = olybzhan_remove_by_value(now.header, LENT, (const uint8_t *)"c", 1, now.out, 4);
    CHECK(old.refusal == 0 && old.found == 0 && untouched());
}

// With the header lent: refused, it and every byte are as they were; accepted, it is changed in place.
static void lent_header(void) {
    fresh();
    struct olybzhan_old_part old = olybzhan_insert(&now.header, LENT, bytes, 513, bytes, 1, NULL, 0);
    CHECK(old.refusal == OLYBZHAN_LONG_KEY && untouched());
    old = olybzhan_remove(&now.header, LENT, (const uint8_t *)"b", 1, NULL, 0);
    CHECK(old.refusal == OLYBZHAN_SHORT_OUTPUT && old.length == 1 && old.found == 0 && untouched());
    now.header.charge++;
    before = now;
    CHECK(olybzhan_clear(&now.header, LENT).refusal == OLYBZHAN_DAMAGED && untouched());
    now.header.charge--;
    old = olybzhan_insert(&now.header, LENT, (const uint8_t *)"d", 1, bytes, 1, NULL, 0);
    CHECK(old.refusal == 0 && old.found == 0 && now.header.pairs == 4);
    old = olybzhan_remove(&now.header, LENT, (const uint8_t *)"c", 1, now.out, 4);
    CHECK(old.found && old.length == 1 && now.header.pairs == 3 && now.out[0] == 3 && now.out[1] == UNTOUCHED);
    CHECK(olybzhan_holds_index_by_value(now.header, LENT));
    CHECK(olybzhan_clear(&now.header, LENT).refusal == 0 && now.header.pairs == 0 && now.header.leaves == 1);
}

// Keys that are only read may lie in the arena, and the one beside an open bound may be any.
static void keys(void) {
    fresh();
    struct olybzhan_shown leaf = olybzhan_leaf_at_by_value(now.header, LENT, 1);
    const uint8_t *low = now.arena + leaf.low_offset;
    CHECK(leaf.low_length == 1 && *low == 0x62);
    CHECK(olybzhan_get_by_value(now.header, LENT, low, 1).found);
    struct olybzhan_scanned pair = olybzhan_get_gt_by_value(now.header, LENT, low, 1, now.out, 1);
    CHECK(pair.found && now.out[0] == 0x63);
    pair = olybzhan_first_in_range_by_value(now.header, LENT, 9, OLYBZHAN_EXCLUDED, bytes, LONG, low, 1, now.out, 1);
    CHECK(pair.refusal == 0 && pair.found && now.out[0] == 0x61);
    CHECK(olybzhan_leaf_at_by_value(now.header, LENT, (size_t)-1).found == 0);
}

int main(void) {
    empty_slices();
    refusals();
    outputs();
    lent_header();
    keys();
    printf("edges: %d checks, %d faults\n", checks, faults);
    return faults != 0;
}

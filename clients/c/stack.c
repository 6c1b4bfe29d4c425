// How much stack each call takes: the memory below is painted, the call made, and the paint looked at. Printed is the most that any call of a
// random history took, with its arguments and the frame of `call`, which makes it. Over LIMIT, which olybzhan.h states, the status is 1.

#include "olybzhan.h"
#include <stdio.h>

enum { FANOUT = 3, POOL = 64, ARENA = 4096, LIMIT = 4096, DEPTH = 4 * LIMIT, PAINT = 0xa5, CALLS = 4000, LONGEST = 12 };

static uint32_t dir[POOL];
static uint64_t slots[FANOUT * POOL];
static uint8_t arena[ARENA], key[LONGEST], value[LONGEST], out[OLYBZHAN_KEY_LIMIT];
static struct olybzhan_header header;

#define LENT dir, POOL, slots, FANOUT *POOL, arena, ARENA

// The memory below the caller: painted, or how much of it was painted over since. One function does both, so that both see the same bytes.
static __attribute__((noinline)) size_t stack(bool look) {
    uint8_t room[DEPTH];
    size_t i = 0;
    __asm__ volatile("" : : "r"(room) : "memory");
    if (look) {
        while (i < DEPTH && room[i] == PAINT) i++;
    } else {
        for (; i < DEPTH; i++) room[i] = PAINT;
    }
    __asm__ volatile("" : : "r"(room) : "memory");
    return DEPTH - i;
}

enum {
    HOLDS_INDEX, CREATE, CLEAR, LEN, INSERT, REMOVE, CONTAINS_KEY, GET, FIRST_IN_RANGE, GET_GT, FIRST, SCAN_PREFIX, LEAF_AT,
    CLEAR_LENT, INSERT_LENT, REMOVE_LENT, KINDS
};

static const char *const names[KINDS] = {"holds_index", "create", "clear", "len", "insert", "remove", "contains_key",
                                         "get", "first_in_range", "get_gt", "first", "scan_prefix", "leaf_at",
                                         "clear, header lent", "insert, header lent", "remove, header lent"};

static uint32_t state = 1;

static uint32_t below(uint32_t limit) {
    state = state * 1664525 + 1013904223;
    return (uint64_t)state * limit >> 32; // the high bits: the low ones repeat too soon
}

static __attribute__((noinline)) void call(int kind, size_t key_len, size_t value_len) {
    switch (kind) {
    case HOLDS_INDEX: olybzhan_holds_index_by_value(header, LENT); break;
    case CREATE: header = olybzhan_create_by_value(FANOUT, LENT).header; break;
    case CLEAR: header = olybzhan_clear_by_value(header, LENT).header; break;
    case LEN: olybzhan_len_by_value(header, LENT); break;
    case INSERT:
        header = olybzhan_insert_by_value(header, LENT, key, key_len, value, value_len, out, sizeof out).header;
        break;
    case REMOVE: header = olybzhan_remove_by_value(header, LENT, key, key_len, out, sizeof out).header; break;
    case CONTAINS_KEY: olybzhan_contains_key_by_value(header, LENT, key, key_len); break;
    case GET: olybzhan_get_by_value(header, LENT, key, key_len); break;
    case FIRST_IN_RANGE:
        olybzhan_first_in_range_by_value(header, LENT, below(3), OLYBZHAN_OPEN, key, key_len, NULL, 0, out, sizeof out);
        break;
    case GET_GT: olybzhan_get_gt_by_value(header, LENT, key, key_len, out, sizeof out); break;
    case FIRST: olybzhan_first_by_value(header, LENT, out, sizeof out); break;
    case SCAN_PREFIX: olybzhan_scan_prefix(key, key_len, out, sizeof out); break;
    case LEAF_AT: olybzhan_leaf_at_by_value(header, LENT, below(POOL)); break;
    case CLEAR_LENT: olybzhan_clear(&header, LENT); break;
    case INSERT_LENT: olybzhan_insert(&header, LENT, key, key_len, value, value_len, out, sizeof out); break;
    case REMOVE_LENT: olybzhan_remove(&header, LENT, key, key_len, out, sizeof out); break;
    }
}

int main(void) {
    size_t most[KINDS] = {0};
    bool over = false;
    // Not known to the compiler, which would make two functions of one.
    volatile bool paint = false, look = true;
    for (int i = 0; i < CALLS; i++) {
        // Mostly changes, so that leaves split and merge; clear and create seldom.
        int kind = i == 0 ? CREATE : below(4) ? (below(2) ? INSERT : INSERT_LENT) + (int)below(2) : (int)below(KINDS);
        if ((kind == CREATE || kind == CLEAR || kind == CLEAR_LENT) && i != 0 && below(8)) continue;
        size_t key_len = below(4), value_len = below(LONGEST + 1);
        for (size_t at = 0; at < key_len; at++) key[at] = 0x61 + below(4);
        stack(paint);
        call(kind, key_len, value_len);
        size_t took = stack(look);
        if (took > most[kind]) most[kind] = took;
    }
    for (int kind = 0; kind < KINDS; kind++) {
        printf("stack: %s %zu\n", names[kind], most[kind]);
        over = over || most[kind] > LIMIT;
    }
    return over;
}

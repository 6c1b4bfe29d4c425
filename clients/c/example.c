// Document 01's run, a walk through all pairs, and its bench example A5, told in the words of its script program.

#include "olybzhan.h"
#include <stdio.h>
#include <string.h>

enum { FANOUT = 3, POOL = 4, ARENA = 64, VALUE = 8 };

// Static, so all bytes have been written before they are lent.
static uint32_t dir[POOL];
static uint64_t slots[FANOUT * POOL];
static uint8_t arena[ARENA];
static struct olybzhan_header header;

// Bytes in hex, the empty string as `-`.
static void say(const char *word, const uint8_t *bytes, size_t length) {
    printf("%s ", word);
    for (size_t i = 0; i < length; i++) printf("%02x", bytes[i]);
    if (length == 0) printf("-");
}

static void new(size_t fanout) {
    struct olybzhan_reply reply = olybzhan_create_by_value(fanout, dir, POOL, slots, FANOUT * POOL, arena, ARENA);
    if (reply.refusal != 0) {
        printf("refused %zu\n", reply.refusal);
        return;
    }
    header = reply.header;
    printf("new\n");
}

// The answer of a changing call. Its header is the one to go on with, refused or not.
static void changed(struct olybzhan_old_reply reply, const uint8_t *old) {
    header = reply.header;
    if (reply.refusal != 0) {
        printf("refused %zu\n", reply.refusal);
    } else if (reply.found) {
        say("old", old, reply.length);
        printf("\n");
    } else {
        printf("none\n");
    }
}

static void put(uint8_t key, uint8_t value) {
    uint8_t old[VALUE] = {0};
    changed(olybzhan_insert_by_value(header, dir, POOL, slots, FANOUT * POOL, arena, ARENA, &key, 1, &value, 1, old, sizeof old), old);
}

static void del(uint8_t key) {
    uint8_t old[VALUE] = {0};
    changed(olybzhan_remove_by_value(header, dir, POOL, slots, FANOUT * POOL, arena, ARENA, &key, 1, old, sizeof old), old);
}

static void get(uint8_t key) {
    struct olybzhan_place place = olybzhan_get_by_value(header, dir, POOL, slots, FANOUT * POOL, arena, ARENA, &key, 1);
    if (place.refusal != 0) {
        printf("refused %zu\n", place.refusal);
    } else if (place.found) {
        say("value", arena + place.offset, place.length);
        printf("\n");
    } else {
        printf("none\n");
    }
}

static void leaves(void) {
    for (size_t place = 0;; place++) {
        struct olybzhan_shown leaf = olybzhan_leaf_at_by_value(header, dir, POOL, slots, FANOUT * POOL, arena, ARENA, place);
        if (leaf.refusal != 0) {
            printf("refused %zu\n", leaf.refusal);
            return;
        }
        if (!leaf.found) return;
        say("leaf", arena + leaf.low_offset, leaf.low_length);
        if (leaf.has_upper) {
            say("", arena + leaf.upper_offset, leaf.upper_length);
        } else {
            printf(" *");
        }
        printf(" %zu %zu\n", leaf.prefix_length, leaf.pairs);
    }
}

// All pairs in key order. The last key is copied: an output may not be a key of the same call.
static void walk(void) {
    uint8_t last[OLYBZHAN_KEY_LIMIT], key[OLYBZHAN_KEY_LIMIT] = {0};
    size_t length = 0, from = OLYBZHAN_OPEN;
    for (;;) {
        struct olybzhan_scanned pair =
            olybzhan_first_in_range_by_value(header, dir, POOL, slots, FANOUT * POOL, arena, ARENA, from, OLYBZHAN_OPEN, last, length,
                                             NULL, 0, key, sizeof key);
        if (pair.refusal != 0) {
            printf("refused %zu\n", pair.refusal);
            return;
        }
        if (!pair.found) break;
        say("pair", key, pair.key);
        say("", arena + pair.offset, pair.value);
        printf("\n");
        memcpy(last, key, pair.key);
        length = pair.key;
        from = OLYBZHAN_EXCLUDED;
    }
    printf("end\n");
}

int main(void) {
    new(FANOUT);
    put(0x61, 0x01);
    put(0x62, 0x02);
    put(0x63, 0x03);
    leaves();
    get(0x62);
    walk();
    del(0x62);
    del(0x63);
    leaves();
    del(0x61);
    leaves();
    return 0;
}

// Calls the archive's functions for another process: a request on standard input, its answer on standard output, until the input ends.
//
// A buffer lies at a fence, memory that can't be touched: by turns just behind one and just before one. What a function may only read
// lies in memory that can't be written, and the key beside an open bound in memory that can't be read. So a read or a write out of
// place ends this program.

#include "olybzhan.h"

// Of the C library.
struct timespec {
    long seconds, nanoseconds;
};
long read(int, void *, size_t);
long write(int, const void *, size_t);
void *mmap(void *, size_t, int, int, int, long);
int memfd_create(const char *, unsigned);
int ftruncate(int, long);
int clock_gettime(int, struct timespec *);
_Noreturn void _exit(int);

enum { NO_ACCESS = 0, READ = 1, READ_WRITE = 3, SHARED = 1, PRIVATE = 2, FIXED = 16, ANONYMOUS = 32, CPU_TIME = 2 };

enum { FENCE = 1 << 16, ROOM = 1 << 22 };

// The same memory twice.
struct room {
    uint8_t *written, *only_read;
};

static uint8_t *fenced(int file, int access) {
    uint8_t *all = mmap(0, FENCE + ROOM + FENCE, NO_ACCESS, PRIVATE | ANONYMOUS, -1, 0);
    uint8_t *room = mmap(all + FENCE, ROOM, access, SHARED | FIXED, file, 0);
    if (room != all + FENCE) _exit(3);
    return room;
}

static struct room make_room(void) {
    int file = memfd_create("room", 0);
    if (file < 0 || ftruncate(file, ROOM)) _exit(3);
    return (struct room){fenced(file, READ_WRITE), fenced(file, READ)};
}

// A buffer's place in its room.
static size_t place_of(size_t bytes, bool at_end) {
    if (bytes > ROOM) _exit(3);
    return at_end ? ROOM - bytes : 0;
}

// False where the input ends before the first byte.
static bool take(void *to, size_t bytes) {
    for (size_t at = 0; at < bytes;) {
        long n = read(0, (uint8_t *)to + at, bytes - at);
        if (n < 0 || (n == 0 && at > 0)) _exit(3);
        if (n == 0) return false;
        at += n;
    }
    return true;
}

static void give(const void *from, size_t bytes) {
    for (size_t at = 0; at < bytes;) {
        long n = write(1, (const uint8_t *)from + at, bytes - at);
        if (n <= 0) _exit(3);
        at += n;
    }
}

// This program's own, so that others on the machine don't count.
static uint64_t nanoseconds(void) {
    struct timespec now;
    clock_gettime(CPU_TIME, &now);
    return now.seconds * 1000000000ul + now.nanoseconds;
}

// From INSERT on a call may change the arena too.
enum call {
    HOLDS_INDEX, CREATE, CLEAR, LEN, CONTAINS_KEY, GET, FIRST_IN_RANGE, GET_GT, FIRST, SCAN_PREFIX, LEAF_AT,
    INSERT, REMOVE, TIME_INSERTS, TIME_REMOVES, USE_STACK
};

struct request {
    uint64_t call, times;
    struct olybzhan_header header;
    size_t dir_len, slots_len, arena_len;
    size_t numbers[2];
    size_t key_len, end_len, out_len;
};

struct answer {
    union {
        size_t words[9];
        struct olybzhan_told told;
        struct olybzhan_reply reply;
        struct olybzhan_old_reply old_reply;
        struct olybzhan_place place;
        struct olybzhan_scanned scanned;
        struct olybzhan_span span;
        struct olybzhan_shown shown;
    };
    uint64_t nanoseconds;
};

// What a call is lent. The header only where it is not passed by value.
struct lent {
    struct olybzhan_header *header;
    uint32_t *dir;
    uint64_t *slots;
    uint8_t *written_arena;
    const uint32_t *read_dir;
    const uint64_t *read_slots;
    const uint8_t *arena, *key, *end;
    uint8_t *out;
};

// The buffers by a request q and what is lent, l: for a call that only reads them, one that keeps the arena, and one that may change all.
#define READ_LENT l->read_dir, q->dir_len, l->read_slots, q->slots_len, l->arena, q->arena_len
#define CLEARED_LENT l->dir, q->dir_len, l->slots, q->slots_len, l->arena, q->arena_len
#define CHANGED_LENT l->dir, q->dir_len, l->slots, q->slots_len, l->written_arena, q->arena_len

static struct olybzhan_old_reply with_header(struct olybzhan_old_part p, const struct olybzhan_header *h) {
    return (struct olybzhan_old_reply){p.refusal, p.length, p.found, *h};
}

static struct olybzhan_old_reply insert(struct olybzhan_header h, const struct request *q, const struct lent *l, const uint8_t *key,
                                        size_t key_len, const uint8_t *value, size_t value_len) {
    if (!l->header) return olybzhan_insert_by_value(h, CHANGED_LENT, key, key_len, value, value_len, l->out, q->out_len);
    *l->header = h;
    return with_header(olybzhan_insert(l->header, CHANGED_LENT, key, key_len, value, value_len, l->out, q->out_len), l->header);
}

static struct olybzhan_old_reply remove_key(struct olybzhan_header h, const struct request *q, const struct lent *l, const uint8_t *key,
                                            size_t key_len) {
    if (!l->header) return olybzhan_remove_by_value(h, CHANGED_LENT, key, key_len, l->out, q->out_len);
    *l->header = h;
    return with_header(olybzhan_remove(l->header, CHANGED_LENT, key, key_len, l->out, q->out_len), l->header);
}

static struct olybzhan_reply clear(struct olybzhan_header h, const struct request *q, const struct lent *l) {
    if (!l->header) return olybzhan_clear_by_value(h, CLEARED_LENT);
    *l->header = h;
    struct olybzhan_told t = olybzhan_clear(l->header, CLEARED_LENT);
    return (struct olybzhan_reply){t.refusal, t.length, *l->header};
}

// Makes changes one by one up to the first that is refused, the test of W timed by itself before each.
static void time_changes(const struct request *q, const struct lent *l, struct answer *a) {
    size_t key_len = q->numbers[0], value_len = q->numbers[1], calls = 0, tests = 0, count = 0;
    struct olybzhan_header h = q->header;
    for (; (count + 1) * key_len <= q->key_len; count++) {
        uint64_t start = nanoseconds();
        olybzhan_holds_index_by_value(h, READ_LENT);
        uint64_t tested = nanoseconds();
        const uint8_t *key = l->key + count * key_len;
        struct olybzhan_old_reply r = q->call == TIME_INSERTS
                                          ? insert(h, q, l, key, key_len, l->end + count * value_len, value_len)
                                          : remove_key(h, q, l, key, key_len);
        calls += nanoseconds() - tested;
        tests += tested - start;
        if (r.refusal) break;
        h = r.header;
    }
    size_t words[] = {count, h.fanout, h.leaves, h.pairs, h.charge, calls, tests};
    for (size_t i = 0; i < sizeof words / sizeof *words; i++) a->words[i] = words[i];
}

// Touches so many bytes of stack, from the top down, and counts them.
__attribute__((noinline)) static size_t use_stack(size_t bytes) {
    volatile uint8_t all[bytes];
    size_t touched = 0;
    for (size_t at = bytes; at > 0; at--) all[at - 1] = 1, touched += all[at - 1];
    return touched;
}

static void call(const struct request *q, const struct lent *l, struct answer *a) {
    switch (q->call) {
    case HOLDS_INDEX:
        a->words[0] = olybzhan_holds_index_by_value(q->header, READ_LENT);
        break;
    case CREATE:
        a->reply = olybzhan_create_by_value(q->header.fanout, CLEARED_LENT);
        break;
    case CLEAR:
        a->reply = clear(q->header, q, l);
        break;
    case LEN:
        a->told = olybzhan_len_by_value(q->header, READ_LENT);
        break;
    case CONTAINS_KEY:
        a->told = olybzhan_contains_key_by_value(q->header, READ_LENT, l->key, q->key_len);
        break;
    case GET:
        a->place = olybzhan_get_by_value(q->header, READ_LENT, l->key, q->key_len);
        break;
    case FIRST_IN_RANGE:
        a->scanned = olybzhan_first_in_range_by_value(q->header, READ_LENT, q->numbers[0], q->numbers[1], l->key, q->key_len, l->end,
                                                      q->end_len, l->out, q->out_len);
        break;
    case GET_GT:
        a->scanned = olybzhan_get_gt_by_value(q->header, READ_LENT, l->key, q->key_len, l->out, q->out_len);
        break;
    case FIRST:
        a->scanned = olybzhan_first_by_value(q->header, READ_LENT, l->out, q->out_len);
        break;
    case SCAN_PREFIX:
        a->span = olybzhan_scan_prefix(l->key, q->key_len, l->out, q->out_len);
        break;
    case LEAF_AT:
        a->shown = olybzhan_leaf_at_by_value(q->header, READ_LENT, q->numbers[0]);
        break;
    case INSERT:
        a->old_reply = insert(q->header, q, l, l->key, q->key_len, l->end, q->end_len);
        break;
    case REMOVE:
        a->old_reply = remove_key(q->header, q, l, l->key, q->key_len);
        break;
    case TIME_INSERTS:
    case TIME_REMOVES:
        time_changes(q, l, a);
        break;
    case USE_STACK:
        a->words[0] = use_stack(q->numbers[0]);
        break;
    default:
        _exit(3);
    }
}

int main(void) {
    struct room dirs = make_room(), slot_rooms = make_room(), arenas = make_room();
    struct room keys = make_room(), ends = make_room(), outs = make_room(), headers = make_room();
    struct request q;
    unsigned changes = 0;
    for (bool at_end = false; take(&q, sizeof q); at_end = !at_end) {
        size_t dir_bytes = q.dir_len * sizeof(uint32_t), slots_bytes = q.slots_len * sizeof(uint64_t);
        size_t dir_at = place_of(dir_bytes, at_end), slots_at = place_of(slots_bytes, at_end), arena_at = place_of(q.arena_len, at_end);
        size_t key_at = place_of(q.key_len, at_end), end_at = place_of(q.end_len, at_end), out_at = place_of(q.out_len, at_end);
        struct lent l = {
            .dir = (uint32_t *)(dirs.written + dir_at),
            .slots = (uint64_t *)(slot_rooms.written + slots_at),
            .written_arena = arenas.written + arena_at,
            .read_dir = (const uint32_t *)(dirs.only_read + dir_at),
            .read_slots = (const uint64_t *)(slot_rooms.only_read + slots_at),
            .arena = arenas.only_read + arena_at,
            .key = keys.only_read + key_at,
            .end = ends.only_read + end_at,
            .out = outs.written + out_at,
        };
        if (!take(l.dir, dir_bytes) || !take(l.slots, slots_bytes) || !take(arenas.written + arena_at, q.arena_len) ||
            !take(keys.written + key_at, q.key_len) || !take(ends.written + end_at, q.end_len) || !take(l.out, q.out_len))
            _exit(3);
        if (q.call == FIRST_IN_RANGE && q.numbers[0] >= OLYBZHAN_OPEN) l.key = keys.only_read - FENCE;
        if (q.call == FIRST_IN_RANGE && q.numbers[1] >= OLYBZHAN_OPEN) l.end = ends.only_read - FENCE;
        // every two changing calls the header goes the other way, so that each way comes with buffers at both ends of their rooms
        if ((q.call == CLEAR || q.call == INSERT || q.call == REMOVE) && changes++ & 2)
            l.header = (struct olybzhan_header *)(headers.written + place_of(sizeof(struct olybzhan_header), at_end));
        struct answer a = {0};
        uint64_t start = nanoseconds();
        for (uint64_t i = 0; i < q.times; i++) call(&q, &l, &a);
        a.nanoseconds = nanoseconds() - start;
        give(&a, sizeof a);
        give(l.out, q.out_len);
        bool changed = q.call >= INSERT;
        if (q.call == CREATE || q.call == CLEAR || changed) {
            give(l.dir, dir_bytes);
            give(l.slots, slots_bytes);
        }
        if (changed) give(l.written_arena, q.arena_len);
    }
    return 0;
}

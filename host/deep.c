/* A host in C over the linked library: the deepest data, each put, read, compared and collected in a thread of 2 MiB whose stack
 * is painted beforehand, so that the bytes used can be read off afterwards; then the times of the soundness check and of put.
 * Document 01, "Numbers": a datum has 4,096 nodes, so none is nested deeper. Answers and stack are tests; times are printed
 * only. First each call once, accepted and refused, as a host makes it. */
#define _GNU_SOURCE
#include <pthread.h>
#include <stdint.h>
#include <stdio.h>
#include <stdlib.h>
#include <string.h>
#include <sys/mman.h>
#include <time.h>

#include "talvongre.h"

enum { MOST_SLOTS = 4096, MOST_BYTES = 65536, MOST_ELEMENTS = 16384, MOST_NODES = 4096, MOST_LABELS = 64 };
enum { PAGE = 4096, LIMIT = 2 << 20, PROBE = 32 << 20, PAINT = 0xa5 };

static int passed, failed;

static void test(int holds, const char *what, const char *shape) {
    if (holds) {
        passed++;
    } else {
        failed++;
        printf("failed: %s: %s\n", shape, what);
    }
}

/* ---- lent lists, the datum, and one call on them */

struct heap {
    size_t slots, bytes_len, elements;
    uint64_t words[TALVONGRE_WORDS(MOST_SLOTS)];
    uint8_t map[TALVONGRE_MAP_BYTES(MOST_SLOTS)];
    uint8_t bytes[MOST_BYTES];
    uint64_t elems[TALVONGRE_ELEMENT_WORDS(MOST_ELEMENTS)];
};

static struct heap heap, fresh, before;
static uint64_t scratch[TALVONGRE_SCRATCH_WORDS(MOST_SLOTS)];
static uint8_t datum[1 << 20], out[1 << 20];
static size_t datum_len;

#define LISTS(h)                                                                                                             \
    (h)->words, TALVONGRE_WORDS((h)->slots), (h)->map, TALVONGRE_MAP_BYTES((h)->slots), (h)->bytes, (h)->bytes_len,          \
        (h)->elems, TALVONGRE_ELEMENT_WORDS((h)->elements)

enum what { NOTHING, SETUP, USED, TEXT, PUT, READ, EQUAL, COLLECT };

static uint64_t other; /* the slot that a slot is compared with */

struct call {
    enum what what;
    uint64_t given; /* a chunk, a slot or the one root */
    uint32_t answer;
    uint64_t result;
};

static void *run(void *at) {
    struct call *c = at;
    uint64_t place;
    switch (c->what) {
    case NOTHING:
        c->answer = 0;
        break;
    case SETUP:
        c->answer = talvongre_setup(LISTS(&heap), c->given);
        break;
    case USED:
        c->answer = talvongre_used(LISTS(&heap), &c->result);
        break;
    case TEXT:
        c->answer = talvongre_text(LISTS(&heap), c->given, &place, &c->result);
        break;
    case PUT:
        c->answer = talvongre_put(LISTS(&heap), scratch, TALVONGRE_SCRATCH_WORDS(heap.slots), datum, datum_len, &c->result);
        break;
    case READ:
        c->answer = talvongre_read(LISTS(&heap), scratch, TALVONGRE_SCRATCH_WORDS(heap.slots), out, sizeof out, 15, c->given, &c->result);
        break;
    case EQUAL:
        c->answer = talvongre_equal(LISTS(&heap), scratch, TALVONGRE_SCRATCH_WORDS(heap.slots), 15, c->given, 15, other, &c->result);
        break;
    case COLLECT:
        c->answer = talvongre_collect(LISTS(&heap), scratch, TALVONGRE_SCRATCH_WORDS(heap.slots), &c->given, 1);
        break;
    }
    return NULL;
}

static struct call call(enum what what, uint64_t given) {
    struct call c = {what, given, 0, UINT64_MAX};
    run(&c);
    return c;
}

static void set_up(size_t slots, size_t bytes_len, size_t elements, uint64_t chunk) {
    heap.slots = slots;
    heap.bytes_len = bytes_len;
    heap.elements = elements;
    if (call(SETUP, chunk).answer != TALVONGRE_OK) {
        printf("failed: no heap of %zu slots\n", slots);
        exit(1);
    }
}

/* ---- data */

static void start(void) { datum_len = 0; }

static void byte(unsigned b) { datum[datum_len++] = (uint8_t)b; }

static void four(uint32_t n) {
    for (int i = 0; i < 4; i++) byte(n >> (8 * i) & 255);
}

static void nil(void) { byte(1); }

static void text(unsigned kind, const char *s, size_t n) {
    byte(kind);
    four((uint32_t)n);
    for (size_t i = 0; i < n; i++) byte((unsigned char)s[i]);
}

static void label(unsigned kind, uint32_t l) {
    byte(kind);
    four(l);
}

enum shape { CARS, CDRS, VECTORS, LABELS, TURNS, MIX, SHAPES };
static const char *const names[] = {"cars", "cdrs", "vectors of one", "labels", "vectors and labels in turn", "a mix of the four"};

/* One level of a shape, and the nodes that it takes; a pair in cars owes its cdr, which is written at the end. */
static size_t level(enum shape shape, size_t depth, size_t *owed) {
    if (shape == MIX) shape = (enum shape)(depth % 4);
    if (shape == TURNS) shape = depth % 2 ? LABELS : VECTORS;
    switch (shape) {
    case CARS:
        byte(9);
        ++*owed;
        return 2;
    case CDRS:
        byte(9);
        nil();
        return 2;
    case VECTORS:
        byte(10);
        four(1);
        return 1;
    default:
        label(12, (uint32_t)(depth % MOST_LABELS));
        return 1;
    }
}

/* The deepest datum of at most so many nodes: levels, one scalar, and the cdrs owed. */
static size_t deepest(enum shape shape, size_t nodes) {
    size_t depth = 0, owed = 0, used = 1;
    start();
    int pairs = shape == CARS || shape == CDRS || shape == MIX;
    while (used + 1 + pairs <= nodes) {
        used += level(shape, depth, &owed);
        depth++;
    }
    nil();
    while (owed--) nil();
    return depth;
}

/* ---- the slot that the rules give, counted here in another way: only how many slots are taken, and from which end */

static uint64_t of_label[MOST_LABELS];
static uint64_t taken, first, lent_slots;

static uint64_t take(void) {
    uint64_t n = taken++;
    return n < first ? n : lent_slots - 1 - (n - first);
}

static const uint8_t *follow(const uint8_t *at, uint64_t *slot);

static const uint8_t *follow_in_slot(const uint8_t *at, uint64_t *slot) {
    at = follow(at, slot);
    if (*slot == UINT64_MAX) *slot = take();
    return at;
}

/* Only what `deepest` writes; a scalar has no slot yet. */
static const uint8_t *follow(const uint8_t *at, uint64_t *slot) {
    uint64_t inner, own;
    switch (*at) {
    case 9:
        at = follow_in_slot(at + 1, &inner);
        at = follow_in_slot(at, &inner);
        *slot = take();
        return at;
    case 10:
        at = follow(at + 5, &inner);
        *slot = take();
        return at;
    case 12:
        own = take();
        of_label[at[1]] = own;
        at = follow(at + 5, &inner);
        *slot = own;
        return at;
    default:
        *slot = UINT64_MAX;
        return at + 1;
    }
}

/* At the chunk at the start; then, if the chunk is half of the slots, all the others, highest first. */
static uint64_t expected_root(uint64_t chunk) {
    uint64_t root;
    taken = 0;
    first = chunk;
    lent_slots = heap.slots;
    follow_in_slot(datum, &root);
    return root;
}

/* ---- the stack */

/* Runs a call in a thread with a stack of this size and says how many of its bytes were written. A page below it is kept
 * from all use, so that a stack too small ends the program. */
static size_t stack_used(struct call *c, size_t size) {
    uint8_t *memory = mmap(NULL, size + PAGE, PROT_READ | PROT_WRITE, MAP_PRIVATE | MAP_ANONYMOUS, -1, 0);
    if (memory == MAP_FAILED || mprotect(memory, PAGE, PROT_NONE) != 0) {
        puts("failed: no memory for a stack");
        exit(1);
    }
    uint8_t *stack = memory + PAGE;
    memset(stack, PAINT, size);
    pthread_attr_t attributes;
    pthread_t thread;
    if (pthread_attr_init(&attributes) != 0 || pthread_attr_setstack(&attributes, stack, size) != 0 ||
        pthread_create(&thread, &attributes, run, c) != 0 || pthread_join(thread, NULL) != 0) {
        puts("failed: no thread");
        exit(1);
    }
    pthread_attr_destroy(&attributes);
    size_t untouched = 0;
    while (untouched < size && stack[untouched] == PAINT) untouched++;
    munmap(memory, size + PAGE);
    return size - untouched;
}

/* First in a big stack, for the figure; then, where that fits, in one of 2 MiB, for the answer. */
static struct call in_thread(enum what what, uint64_t given, const char *shape, size_t depth) {
    struct call c = {what, given, 0, UINT64_MAX};
    before = heap;
    size_t probed = stack_used(&c, PROBE);
    printf("%-46s %8zu %10zu", shape, depth, probed);
    test(probed <= LIMIT, "more than 2 MiB of stack", shape);
    if (probed <= LIMIT) {
        heap = before;
        c = (struct call){what, given, 0, UINT64_MAX};
        printf(" %10zu", stack_used(&c, LIMIT));
    }
    printf("\n");
    return c;
}

static int same_lists(const struct heap *a, const struct heap *b) { return memcmp(a, b, sizeof *a) == 0; }

static int scratch_zero(void) {
    for (size_t i = 0; i < sizeof scratch / sizeof *scratch; i++)
        if (scratch[i] != 0) return 0;
    return 1;
}

static uint64_t deep_put(enum shape shape, uint64_t chunk) {
    char title[80];
    set_up(MOST_SLOTS, MOST_BYTES, MOST_ELEMENTS, chunk);
    size_t depth = deepest(shape, MOST_NODES);
    snprintf(title, sizeof title, "put, %s, chunk %d", names[shape], (int)chunk);
    memset(scratch, 0xff, sizeof scratch);
    struct call c = in_thread(PUT, 0, title, depth);
    test(c.answer == TALVONGRE_OK, "refused", title);
    test(c.result == expected_root(chunk), "another slot", title);
    test(scratch_zero(), "scratch not zero", title);
    uint64_t root = c.result;
    c = call(USED, 0);
    test(c.answer == TALVONGRE_OK && c.result == taken, "another used count", title);
    return root;
}

/* What was put, in slot `root`, is read back, before and after a collection that keeps it: the same bytes, where it has no label. */
static void deep_read(enum shape shape, uint64_t root) {
    char title[80];
    static uint8_t first_out[sizeof out];
    size_t depth = deepest(shape, MOST_NODES);
    int plain = shape == CARS || shape == CDRS || shape == VECTORS;
    snprintf(title, sizeof title, "read, %s", names[shape]);
    memset(out, 0, sizeof out);
    struct call c = in_thread(READ, root, title, depth);
    test(c.answer == TALVONGRE_OK && c.result > 0, "refused", title);
    test(!plain || (c.result == datum_len && memcmp(out, datum, datum_len) == 0), "another datum", title);
    uint64_t length = c.result;
    memcpy(first_out, out, sizeof out);
    snprintf(title, sizeof title, "collect, %s", names[shape]);
    test(in_thread(COLLECT, root, title, depth).answer == TALVONGRE_OK, "refused", title);
    memset(out, 0, sizeof out);
    c = call(READ, root);
    test(c.answer == TALVONGRE_OK && c.result == length && memcmp(out, first_out, sizeof out) == 0, "another reading", title);
    test(scratch_zero(), "scratch not zero", title);
}

/* A ring of so many vectors of one: the longest path, and a label on it. */
static void deep_ring(void) {
    set_up(MOST_SLOTS, MOST_BYTES, MOST_ELEMENTS, MOST_SLOTS);
    start();
    label(12, 0);
    for (size_t i = 0; i + 2 < MOST_NODES; i++) {
        byte(10);
        four(1);
    }
    label(13, 0);
    struct call c = call(PUT, 0);
    test(c.answer == TALVONGRE_OK, "refused", "put, a ring of vectors");
    uint64_t root = c.result;
    c = in_thread(READ, root, "read, a ring of vectors", MOST_NODES - 2);
    test(c.answer == TALVONGRE_OK && c.result == datum_len && memcmp(out, datum, datum_len) == 0, "another datum", "read, a ring of vectors");
    test(in_thread(COLLECT, root, "collect, a ring of vectors", MOST_NODES - 2).answer == TALVONGRE_OK, "refused", "collect, a ring of vectors");
}

/* Two data of half the nodes each, compared. */
static void deep_equal(enum shape shape) {
    char title[80];
    set_up(MOST_SLOTS, MOST_BYTES, MOST_ELEMENTS, MOST_SLOTS);
    size_t depth = deepest(shape, MOST_NODES / 2);
    snprintf(title, sizeof title, "equal, %s", names[shape]);
    other = call(PUT, 0).result;
    struct call c = call(PUT, 0);
    uint64_t root = c.result;
    memset(scratch, 0xff, sizeof scratch);
    c = in_thread(EQUAL, root, title, depth);
    test(c.answer == TALVONGRE_OK && c.result == 1, "not equal", title);
    test(scratch_zero(), "scratch not zero", title);
}

/* Every slot a pair that names the next one twice, which unfolds to more nodes than a datum has, along the longest path that a
 * heap has: 12, and soon. */
static void unfolding(void) {
    set_up(MOST_SLOTS, MOST_BYTES, MOST_ELEMENTS, MOST_SLOTS);
    start();
    nil();
    for (int i = 0; i < MOST_SLOTS; i++) call(PUT, 0);
    for (uint64_t at = 0; at < MOST_SLOTS; at++) {
        uint64_t next = (at + 1) % MOST_SLOTS;
        test(talvongre_cell_store(LISTS(&heap), at, 9, next, next) == TALVONGRE_OK, "refused", "store");
    }
    fresh = heap;
    struct call c = in_thread(READ, 0, "read, a path of all slots, without end", MOST_SLOTS);
    test(c.answer == TALVONGRE_OVER_LIMIT && c.result == UINT64_MAX, "another answer", "read of very many nodes");
    test(same_lists(&heap, &fresh), "lists changed", "read of very many nodes");
}

/* Deep data that are refused change nothing. */
static void deep_refused(const char *title, uint64_t chunk, uint32_t answer) {
    set_up(MOST_SLOTS, MOST_BYTES, MOST_ELEMENTS, chunk);
    fresh = heap;
    struct call c = in_thread(PUT, 0, title, 0);
    test(c.answer == answer, "another answer", title);
    test(c.result == UINT64_MAX, "slot written", title);
    test(same_lists(&heap, &fresh), "lists changed", title);
}

static void stacks(void) {
    printf("%-46s %8s %10s %10s\n", "bytes of stack", "depth", "of 32 MiB", "of 2 MiB");
    set_up(MOST_SLOTS, MOST_BYTES, MOST_ELEMENTS, MOST_SLOTS);
    in_thread(NOTHING, 0, "a thread alone", 0);
    test(in_thread(SETUP, MOST_SLOTS, "setup", 0).answer == TALVONGRE_OK, "refused", "setup");
    for (int shape = 0; shape < SHAPES; shape++) deep_read((enum shape)shape, deep_put((enum shape)shape, MOST_SLOTS));
    deep_ring();
    for (int shape = CARS; shape <= VECTORS; shape++) deep_equal((enum shape)shape);
    unfolding();
    test(in_thread(USED, 0, "used: the soundness check alone", 0).answer == TALVONGRE_OK, "refused", "used");
    test(in_thread(TEXT, 0, "text", 0).answer == TALVONGRE_WRONG_CELL, "another answer", "text");
    for (int shape = 0; shape < SHAPES; shape++) deep_put((enum shape)shape, MOST_SLOTS / 2);
    deepest(VECTORS, MOST_NODES);
    deep_refused("put, vectors of one, chunk 4: no slots", 4, TALVONGRE_NO_SLOTS);
    deepest(LABELS, MOST_NODES + 1);
    deep_refused("put, labels, a node too many", MOST_SLOTS, TALVONGRE_OVER_LIMIT);
    deepest(CDRS, MOST_NODES);
    datum_len--;
    deep_refused("put, cdrs, cut short", MOST_SLOTS, TALVONGRE_MALFORMED);
}

/* ---- each call once, accepted and refused */

static void put_datum_of(unsigned kind, const char *s) {
    start();
    text(kind, s, strlen(s));
}

static void calls(void) {
    uint64_t n = 7, place = 7, size = 7;
    set_up(8, 16, 2, 4);
    put_datum_of(8, "name");
    struct call c = call(PUT, 0);
    test(c.answer == TALVONGRE_OK && c.result == 0, "symbol", "put");
    put_datum_of(7, "string");
    c = call(PUT, 0);
    test(c.answer == TALVONGRE_OK && c.result == 1, "string", "put");
    start();
    nil();
    c = call(PUT, 0);
    test(c.answer == TALVONGRE_OK && c.result == 2, "nil", "put");
    test(talvongre_text(LISTS(&heap), 1, &place, &size) == TALVONGRE_OK && place == 4 && size == 6, "string", "text");
    test(memcmp(heap.bytes + place, "string", size) == 0, "the string's bytes", "text");
    test(talvongre_text(LISTS(&heap), 0, &place, &size) == TALVONGRE_OK && place == 0 && size == 4, "symbol", "text");
    test(talvongre_text(LISTS(&heap), 2, &place, &size) == TALVONGRE_WRONG_CELL && place == 0 && size == 4, "nil", "text");
    test(talvongre_text(LISTS(&heap), 3, &place, &size) == TALVONGRE_NO_SUCH_SLOT && place == 0 && size == 4, "Free", "text");
    test(talvongre_text(LISTS(&heap), 4, &place, &size) == TALVONGRE_NO_SUCH_SLOT, "past the capacity", "text");
    test(talvongre_text(LISTS(&heap), UINT64_MAX, &place, &size) == TALVONGRE_NO_SUCH_SLOT, "far past it", "text");
    test(talvongre_capacity(LISTS(&heap), &n) == TALVONGRE_OK && n == 4, "count", "capacity");
    test(talvongre_free(LISTS(&heap), &n) == TALVONGRE_OK && n == 1, "count", "free");
    test(talvongre_used(LISTS(&heap), &n) == TALVONGRE_OK && n == 3, "count", "used");
    c = call(READ, 1);
    test(c.answer == TALVONGRE_OK && c.result == 11 && memcmp(out, "\x07\x06\0\0\0string", 11) == 0, "string", "read");
    c = call(READ, 3);
    test(c.answer == TALVONGRE_NO_SUCH_SLOT && c.result == UINT64_MAX, "Free", "read");
    test(talvongre_read(LISTS(&heap), scratch, TALVONGRE_SCRATCH_WORDS(4), out, 10, 15, 1, &n) == TALVONGRE_SHORT_OUTPUT && n == 3, "output", "read");
    test(talvongre_read(LISTS(&heap), scratch, TALVONGRE_SCRATCH_WORDS(4), out, 11, 4, 2, &n) == TALVONGRE_MALFORMED && n == 3, "Bool", "read");
    other = 2;
    c = call(EQUAL, 2);
    test(c.answer == TALVONGRE_OK && c.result == 1, "one slot", "equal");
    c = call(EQUAL, 1);
    test(c.answer == TALVONGRE_OK && c.result == 0, "string and nil", "equal");
    c = call(EQUAL, 4);
    test(c.answer == TALVONGRE_NO_SUCH_SLOT && c.result == UINT64_MAX, "past the capacity", "equal");
    put_datum_of(7, "bytes 7");
    c = call(PUT, 0);
    test(c.answer == TALVONGRE_NO_ROOM && c.result == UINT64_MAX, "room", "put");
    put_datum_of(13, "");
    c = call(PUT, 0);
    test(c.answer == TALVONGRE_EARLY_LABEL && c.result == UINT64_MAX, "label", "put");
    uint32_t told = talvongre_put(LISTS(&heap), scratch, TALVONGRE_SCRATCH_WORDS(4) - 1, datum, datum_len, &n);
    test(told == TALVONGRE_SHORT_SCRATCH && n == 3, "scratch", "put");
    heap.words[7] = 1;
    before = heap;
    test(talvongre_capacity(LISTS(&heap), &n) == TALVONGRE_UNSOUND && n == 3, "unsound", "capacity");
    test(talvongre_free(LISTS(&heap), &n) == TALVONGRE_UNSOUND && n == 3, "unsound", "free");
    test(talvongre_used(LISTS(&heap), &n) == TALVONGRE_UNSOUND && n == 3, "unsound", "used");
    test(talvongre_text(LISTS(&heap), 1, &place, &size) == TALVONGRE_UNSOUND && place == 0 && size == 4, "unsound", "text");
    c = call(PUT, 0);
    test(c.answer == TALVONGRE_UNSOUND && c.result == UINT64_MAX, "unsound", "put");
    test(talvongre_setup(LISTS(&heap), 6) == TALVONGRE_BAD_SETUP, "chunk", "setup");
    test(same_lists(&heap, &before), "lists changed by a refusal", "all");
    test(talvongre_setup(LISTS(&heap), 8) == TALVONGRE_OK && heap.words[1] == 8, "chunk", "setup");
    test(talvongre_capacity(NULL, 0, NULL, 0, NULL, 0, NULL, 0, &n) == TALVONGRE_UNSOUND, "no lists", "capacity");
}

/* ---- times */

static double now(void) {
    struct timespec t;
    clock_gettime(CLOCK_THREAD_CPUTIME_ID, &t);
    return (double)t.tv_sec * 1e6 + (double)t.tv_nsec / 1e3;
}

/* The least of several times of one call, in microseconds. */
static double time_used(void) {
    double least = 1e18;
    for (int i = 0; i < 100; i++) {
        double t = now();
        struct call c = call(USED, 0);
        t = now() - t;
        if (c.answer == TALVONGRE_OK && t < least) least = t;
    }
    return least;
}

/* The same of a put, less that of the soundness check on the heap before it, taken in turn. */
static double time_put(void) {
    double least = 1e18, check = 1e18;
    before = heap;
    for (int i = 0; i < 200; i++) {
        heap = before;
        double t = now();
        struct call c = call(USED, 0);
        t = now() - t;
        if (c.answer == TALVONGRE_OK && t < check) check = t;
        t = now();
        c = call(PUT, 0);
        t = now() - t;
        if (c.answer == TALVONGRE_OK && t < least) least = t;
    }
    return least - check;
}

/* ---- full heaps: every slot taken; the rooms are in proportion to the slots, 16 bytes and 4 elements a slot */

enum full { STRINGS, NAMES, SCOPES, ONE_BLOCK, SHARED_STRING, SHARED_NAME, SHARED_VECTOR, SMALL_VECTORS, PAIRS, QUARTERS, FULLS };
static const char *const fulls[] = {
    "a string of 16 bytes in each slot",
    "a table of as many names, 16 bytes, 12 alike",
    "a table of one name of 16 bytes, all scopes",
    "the same of 255 bytes, one block (by no put)",
    "one string of 4,096 bytes that most slots share",
    "one name of 255 bytes that most slots share",
    "one vector of 1,024 that most slots share",
    "a vector of 8 slots in every two slots",
    "pairs",
    "strings, names, vectors and pairs, a quarter each",
};

static int put_made(void) { return call(PUT, 0).answer == TALVONGRE_OK; }

static void put_text(unsigned kind, size_t i) {
    char s[17];
    start();
    snprintf(s, sizeof s, "abcdefghijkl%04x", (unsigned)(i * 1237 % 4096)); /* in no order */
    text(kind, s, 16);
    put_made();
}

static void put_scoped(size_t i) {
    start();
    byte(11);
    four((uint32_t)i);
    four(16);
    for (int k = 0; k < 16; k++) byte('s');
    put_made();
}

/* A vector of 8 that holds itself, in two slots. */
static void put_ring(void) {
    start();
    label(12, 0);
    byte(10);
    four(8);
    for (int k = 0; k < 8; k++) label(13, 0);
    put_made();
}

static void put_pair(void) {
    start();
    byte(9);
    nil();
    nil();
    put_made();
}

/* So many slots show one cell: a definition in a definition, and so on, about a string, a name or a vector. */
static void put_shared(enum full full, size_t slots) {
    static char long_text[4096];
    memset(long_text, 'x', sizeof long_text);
    start();
    for (size_t i = 1; i < slots; i++) label(12, (uint32_t)(i % MOST_LABELS));
    if (full == SHARED_STRING) text(7, long_text, 4096);
    if (full == SHARED_NAME || full == ONE_BLOCK) text(8, long_text, 255);
    if (full == SHARED_VECTOR) {
        byte(10);
        four(1024);
        for (int i = 0; i < 1024; i++) label(13, 1);
    }
    put_made();
}

/* An entry of the table for every slot, all of one name, under as many scopes; all bytes in use. */
static void table_of_all(size_t slots) {
    heap.words[3] = slots;
    heap.words[4] = heap.bytes_len;
    for (size_t i = 0; i < slots; i++) {
        heap.words[8 + 8 * i + 5] = i;
        heap.words[8 + 8 * i + 6] = i * 1237 % 4096;
    }
}

/* What is left of the bytes, in strings as long as can be; the slots for them are kept free. */
static void fill_bytes(size_t room) {
    static char long_text[4096];
    memset(long_text, 'y', sizeof long_text);
    while (room > 0) {
        size_t n = room < sizeof long_text ? room : sizeof long_text;
        start();
        text(7, long_text, n);
        if (!put_made()) return;
        room -= n;
    }
}

/* The same of the elements, in vectors of 1,024. */
static void fill_elements(size_t room) {
    for (; room >= 1024; room -= 1024) {
        start();
        byte(10);
        four(1024);
        for (int i = 0; i < 1024; i++) nil();
        put_made();
    }
}

/* A datum that takes one slot, until no slot is free. */
static void fill_slots(void) {
    do {
        start();
        nil();
    } while (put_made());
}

static void fill(enum full full, size_t slots) {
    size_t room = 16 * slots;
    set_up(slots, room, 4 * slots, slots);
    switch (full) {
    case STRINGS:
        for (size_t i = 0; i < slots; i++) put_text(7, i);
        break;
    case NAMES:
        for (size_t i = 0; i < slots; i++) put_text(8, i);
        break;
    case SCOPES:
        for (size_t i = 0; i < slots; i++) put_scoped(i);
        break;
    case ONE_BLOCK:
        put_shared(full, slots);
        table_of_all(slots);
        break;
    case SHARED_STRING:
        put_shared(full, slots - 16);
        fill_bytes(room - 4096);
        break;
    case SHARED_NAME:
        put_shared(full, slots - 17);
        fill_bytes(room - 255);
        break;
    case SHARED_VECTOR:
        /* its elements are nodes too, so not all slots */
        put_shared(full, slots / 4 * 3 - 128);
        fill_elements(4 * slots - 1024);
        fill_bytes(room);
        break;
    case SMALL_VECTORS:
        for (size_t i = 0; i < slots / 2; i++) put_ring();
        break;
    case PAIRS:
        for (size_t i = 0; 3 * i + 2 < slots; i++) put_pair();
        break;
    default:
        for (size_t i = 0; i < slots / 4; i++) {
            put_text(7, i);
            put_text(8, i);
        }
        for (size_t i = 0; i < slots / 8; i++) put_ring();
        for (size_t i = 0; i < slots / 12; i++) put_pair();
        break;
    }
    fill_slots();
}

static void soundness_times(void) {
    printf("\n%-50s %8s %8s %8s %8s %6s\n", "the soundness check (used), microseconds, slots:", "1,024", "4,096", "bytes",
           "elements", "ratio");
    for (int full = 0; full < FULLS; full++) {
        double t[2];
        for (int big = 0; big < 2; big++) {
            size_t slots = big ? 4096 : 1024;
            fill((enum full)full, slots);
            struct call c = call(USED, 0);
            test(c.answer == TALVONGRE_OK && c.result == slots, "heap not full", fulls[full]);
            t[big] = time_used();
        }
        printf("%-50s %8.1f %8.1f %8d %8d %6.2f\n", fulls[full], t[0], t[1], (int)heap.words[4], (int)heap.words[5], t[1] / t[0]);
    }
}

static void put_times(void) {
    printf("\n%-28s %10s %10s %10s %10s\n", "put less soundness, nodes:", "512", "1,024", "2,048", "4,096");
    for (int shape = 0; shape < SHAPES; shape++) {
        double t[4];
        for (int k = 0; k < 4; k++) {
            set_up(MOST_SLOTS, MOST_BYTES, MOST_ELEMENTS, MOST_SLOTS);
            deepest((enum shape)shape, 512u << k);
            t[k] = time_put();
        }
        printf("%-28s %10.1f %10.1f %10.1f %10.1f   microseconds\n", names[shape], t[0], t[1], t[2], t[3]);
        printf("%-28s %10s %10.2f %10.2f %10.2f   to the one before\n", "", "", t[1] / t[0], t[2] / t[1], t[3] / t[2]);
    }
}

/* ---- for host/steps.sh: one full heap kept in a file, and the soundness check of it */

static int keep(int full, size_t slots, const char *path) {
    fill((enum full)full, slots);
    FILE *f = fopen(path, "wb");
    int done = f != NULL && fwrite(&heap, sizeof heap, 1, f) == 1 && fclose(f) == 0;
    if (done) puts(fulls[full]);
    return !done;
}

static int check_kept(const char *path) {
    FILE *f = fopen(path, "rb");
    int done = f != NULL && fread(&heap, sizeof heap, 1, f) == 1 && fclose(f) == 0;
    return !done || call(USED, 0).answer != TALVONGRE_OK;
}

int main(int count, char **words) {
    if (count == 5 && strcmp(words[1], "keep") == 0) {
        int full = atoi(words[2]);
        return full < 0 || full >= FULLS || keep(full, (size_t)atoi(words[3]), words[4]);
    }
    if (count == 3 && strcmp(words[1], "check") == 0) return check_kept(words[2]);
    calls();
    stacks();
    soundness_times();
    put_times();
    printf("%d passed, %d failed\n", passed, failed);
    return failed != 0;
}

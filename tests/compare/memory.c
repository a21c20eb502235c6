#define _DEFAULT_SOURCE
#include "memory.h"
#include <stdlib.h>
#include <string.h>
#include <sys/mman.h>

/* A guard is as large as a page is on any machine. */
enum { GUARD = 1 << 16, ROOM = 1 << 24, CANARY = 32 };

/* The bytes between the guard pages, which have room for the slice at both ends; the plain slice, in a block of its own; its length. */
struct block {
    uint8_t *from, *to;
    uint8_t *plain;
    size_t bytes;
};

static struct block blocks[MOST_SLICES];
static uint64_t state = 1;
static unsigned laid;

static uint8_t *open_block(void) {
    uint8_t *got = mmap(NULL, ROOM + 3 * GUARD, PROT_NONE, MAP_PRIVATE | MAP_ANONYMOUS | MAP_NORESERVE, -1, 0);
    if (got == MAP_FAILED) return NULL;
    uint8_t *from = got + (GUARD - (uintptr_t)got % GUARD) % GUARD + GUARD;
    return mprotect(from, ROOM, PROT_READ | PROT_WRITE) ? NULL : from;
}

bool open_memory(void) {
    for (struct block *b = blocks; b < blocks + MOST_SLICES; b++) {
        uint8_t *plain = open_block();
        b->from = open_block();
        if (!b->from || !plain) return false;
        b->to = b->from + ROOM;
        b->plain = plain + CANARY;
    }
    return true;
}

static uint64_t mixed(void) {
    uint64_t x = state += UINT64_C(0x9e3779b97f4a7c15);
    x = (x ^ x >> 30) * UINT64_C(0xbf58476d1ce4e5b9);
    x = (x ^ x >> 27) * UINT64_C(0x94d049bb133111eb);
    return x ^ x >> 31;
}

/* Which bits of a drawn word are kept, and which are set: drawn bytes, drawn small numbers, zeros or ones. */
struct pattern {
    uint64_t kept, set;
};

static const struct pattern patterns[] = {{~UINT64_C(0), 0}, {UINT64_C(0x0000000300000003), 0}, {0, 0}, {0, ~UINT64_C(0)}};

static void fill(uint8_t *at, size_t bytes, struct pattern p) {
    uint64_t x;
    for (; bytes >= sizeof x; at += sizeof x, bytes -= sizeof x) {
        x = (mixed() & p.kept) | p.set;
        memcpy(at, &x, sizeof x);
    }
    x = (mixed() & p.kept) | p.set;
    memcpy(at, &x, bytes);
}

void lay(int slice, size_t bytes) {
    struct block *b = &blocks[slice];
    if (bytes > ROOM / 2 - CANARY) _Exit(2);
    b->bytes = bytes;
    fill(b->plain - CANARY, CANARY, patterns[0]);
    fill(b->plain, bytes, patterns[laid++ / 7 % 4]);
    fill(b->plain + bytes, CANARY, patterns[0]);
}

static uint8_t *start(const struct block *b, enum place place) {
    return place == PLAIN ? b->plain : place == LOW ? b->from : b->to - b->bytes;
}

void copy_from_plain(int slice, enum place place) {
    struct block *b = &blocks[slice];
    size_t before = place == HIGH ? CANARY : 0;
    memcpy(start(b, place) - before, b->plain - before, b->bytes + CANARY);
}

void *lent(int slice, enum place place) {
    const struct block *b = &blocks[slice];
    return place == LOW && b->bytes == 0 ? NULL : start(b, place);
}

bool differs(int slice, enum place place, struct difference *d) {
    const struct block *b = &blocks[slice];
    size_t before = place == HIGH ? CANARY : 0, i = 0;
    const uint8_t *is = start(b, place) - before, *want = b->plain - before;
    if (memcmp(is, want, b->bytes + CANARY) == 0) return false;
    while (is[i] == want[i]) i++;
    *d = (struct difference){(long)i - (long)before, is[i], want[i]};
    return true;
}

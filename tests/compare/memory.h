/*
 * Memory to lend. Each slice stands in a block between two guard pages, once flush at the lower one and once flush at the upper one, and a third time
 * where the plain implementation works on it. Canary bytes stand on the side where there is no guard page.
 */
#ifndef MEMORY_H
#define MEMORY_H

#include <stdbool.h>
#include <stddef.h>
#include <stdint.h>

enum place { LOW, HIGH, PLAIN };

enum { MOST_SLICES = 32 };

/* Makes the blocks, once; false if there is no memory. */
bool open_memory(void);

/* Lays a slice of so many bytes in its three places, and fills the plain one with a pattern. */
void lay(int slice, size_t bytes);

/* The slice at the low or the high place becomes, with its canaries, what the plain one is. */
void copy_from_plain(int slice, enum place place);

/* Where the slice stands. An empty one is null at the low place, and ends at the guard page at the high one. */
void *lent(int slice, enum place place);

/* A byte that is not as it should be, counted from the slice's first. */
struct difference {
    long at;
    uint8_t is, want;
};

/* Whether the place, canaries included, differs from the plain one, and where first. */
bool differs(int slice, enum place place, struct difference *d);

#endif

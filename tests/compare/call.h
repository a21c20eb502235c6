/* What a call of a public function is given. */
#ifndef CALL_H
#define CALL_H

#include "memory.h"
#include "tinoweala.h"

enum function {
    CHECK_TABLE, SEARCH, TRIM, DECOMPOSE, LABEL_TABLE, PATH, WRITE_CERTIFICATE, CHECK_CERTIFICATE, SUMMARY, READ_TEXT, WRITE_LABELS, LABEL_TEXT, FUNCTIONS
};

/* The slices that functions are lent. A single number is a slice of one entry: COUNTS of size_t, VALUES of 32 bits. */
enum slice {
    SOURCES, TARGETS, KINDS, STARTS, PERMITTED, SET, LIST, WAITING, LABEL, RANK, IN_EDGE, IN_DISTANCE, OUT_EDGE, OUT_DISTANCE, ROOM, NUMBERS,
    WORDS, TEXT, OUT, CHOOSER, COUNT_1, COUNT_2, VALUE_1, VALUE_2, VALUE_3, SLICES
};

/* A slice as it is given: its first entries are the content, the others hold a pattern. */
struct given {
    const void *content;
    size_t held, len;
};

/* An entry that is overwritten before the call, if the slice has it. */
struct spoil {
    enum slice slice;
    size_t entry;
    uint32_t value;
};

enum { MOST_SPOILS = 3 };

/* The mask is that of the edges' kinds; kind is the chooser's. */
struct call {
    enum function function;
    size_t n, u, v;
    uint8_t mask;
    uint32_t method, order, kind, state;
    bool backward;
    struct given given[SLICES];
    struct spoil spoils[MOST_SPOILS];
    size_t spoil_count;
};

/* Whether the function is lent the slice, and the bytes of one entry of it. */
bool takes(enum function f, enum slice s);
extern const size_t entry_size[SLICES];

/* The call of a function on the current table, with every slice as long as it has to be, or a call without a table. Sets and columns hold patterns. */
struct call call_on_table(enum function f);
struct call call_without_table(enum function f);

void give(struct call *c, enum slice s, const void *content, size_t len);
void spoil(struct call *c, enum slice s, size_t entry, uint32_t value);

/* Lends a little more than is needed where that is allowed. */
void lend_more(struct call *c);

/* Makes the call on the slices that are laid: the library at the low or high place, the plain implementation at its own. */
int64_t call_library(const struct call *c, enum place p);
int64_t call_plain(const struct call *c);

#endif

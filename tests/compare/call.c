#include "call.h"
#include "plain.h"
#include "tables.h"
#include <string.h>

struct library {
    __typeof__(tinoweala_check_table) *check_table;
    __typeof__(tinoweala_search) *search;
    __typeof__(tinoweala_trim) *trim;
    __typeof__(tinoweala_decompose) *decompose;
    __typeof__(tinoweala_label) *label;
    __typeof__(tinoweala_path) *path;
    __typeof__(tinoweala_write_certificate) *write_certificate;
    __typeof__(tinoweala_check_certificate) *check_certificate;
    __typeof__(tinoweala_summary) *summary;
    __typeof__(tinoweala_read_text) *read_text;
    __typeof__(tinoweala_write_labels) *write_labels;
    __typeof__(tinoweala_label_text) *label_text;
};

static const struct library library = {
    tinoweala_check_table, tinoweala_search, tinoweala_trim, tinoweala_decompose, tinoweala_label, tinoweala_path, tinoweala_write_certificate,
    tinoweala_check_certificate, tinoweala_summary, tinoweala_read_text, tinoweala_write_labels, tinoweala_label_text};
static const struct library plain = {
    plain_check_table, plain_search, plain_trim, plain_decompose, plain_label, plain_path, plain_write_certificate,
    plain_check_certificate, plain_summary, plain_read_text, plain_write_labels, plain_label_text};

const size_t entry_size[SLICES] = {4, 4, 1, 8, 8, 8, 4, 8, 4, 4, 4, 4, 4, 4, 4, 4, 8, 1, 1, 8, 8, 8, 4, 4, 4};

#define BIT(s) (UINT32_C(1) << (s))
#define EDGES (BIT(SOURCES) | BIT(TARGETS))
#define TABLE (EDGES | BIT(KINDS))
#define MEMORY (BIT(NUMBERS) | BIT(WORDS))
#define CERTIFICATE (BIT(LABEL) | BIT(RANK) | BIT(IN_EDGE) | BIT(IN_DISTANCE) | BIT(OUT_EDGE) | BIT(OUT_DISTANCE))
static const uint32_t taken[FUNCTIONS] = {
    [CHECK_TABLE] = TABLE,
    [SEARCH] = TABLE | BIT(STARTS) | BIT(PERMITTED) | BIT(SET) | MEMORY | BIT(COUNT_1) | BIT(COUNT_2),
    [TRIM] = TABLE | BIT(STARTS) | BIT(SET) | MEMORY | BIT(COUNT_1),
    [DECOMPOSE] = TABLE | BIT(CHOOSER) | BIT(LIST) | BIT(WAITING) | BIT(LABEL) | MEMORY | BIT(COUNT_1),
    [LABEL_TABLE] = TABLE | BIT(LABEL) | MEMORY,
    [PATH] = TABLE | BIT(ROOM) | MEMORY | BIT(COUNT_1),
    [WRITE_CERTIFICATE] = TABLE | CERTIFICATE | MEMORY,
    [CHECK_CERTIFICATE] = TABLE | CERTIFICATE | BIT(VALUE_1) | BIT(COUNT_1),
    [SUMMARY] = BIT(LABEL) | BIT(VALUE_1) | BIT(VALUE_2) | BIT(VALUE_3),
    [READ_TEXT] = BIT(TEXT) | EDGES | BIT(COUNT_1) | BIT(COUNT_2),
    [WRITE_LABELS] = BIT(LABEL) | BIT(OUT) | BIT(COUNT_1),
    [LABEL_TEXT] = BIT(TEXT) | BIT(OUT),
};

bool takes(enum function f, enum slice s) {
    return taken[f] & BIT(s);
}

void give(struct call *c, enum slice s, const void *content, size_t len) {
    c->given[s] = (struct given){content, content ? len : 0, len};
}

void spoil(struct call *c, enum slice s, size_t entry, uint32_t value) {
    c->spoils[c->spoil_count++] = (struct spoil){s, entry, value};
}

struct call call_without_table(enum function f) {
    struct call c;
    memset(&c, 0, sizeof c);
    c.function = f;
    for (int s = COUNT_1; s <= VALUE_3; s++) give(&c, s, NULL, 1);
    give(&c, CHOOSER, NULL, 1);
    return c;
}

struct call call_on_table(enum function f) {
    struct call c = call_without_table(f);
    c.n = table.n;
    give(&c, SOURCES, table.sources, table.m);
    give(&c, TARGETS, table.targets, table.m);
    give(&c, KINDS, table.kinds, table.m);
    c.mask = table.mask;
    for (int s = STARTS; s <= SET; s++) give(&c, s, NULL, tinoweala_set_words(table.n));
    for (int s = WAITING; s <= ROOM; s++) give(&c, s, NULL, table.n);
    give(&c, NUMBERS, NULL, tinoweala_numbers(table.n, table.m));
    give(&c, WORDS, NULL, tinoweala_words(table.n));
    return c;
}

void lend_more(struct call *c) {
    static const enum slice open[] = {WAITING, ROOM, NUMBERS, WORDS, OUT};
    for (size_t i = 0; i < sizeof open / sizeof *open; i++) c->given[open[i]].len += below(6);
}

static uint32_t *value(enum slice s, enum place p) {
    return lent(s, p);
}

static size_t *count(enum slice s, enum place p) {
    return lent(s, p);
}

#define COLUMN(s) (uint32_t *)lent(s, p), c->given[s].len
#define A_SET(s) (uint64_t *)lent(s, p), c->given[s].len
#define BYTES(s) (uint8_t *)lent(s, p), c->given[s].len
#define A_TABLE c->n, COLUMN(SOURCES), COLUMN(TARGETS), BYTES(KINDS)

/* Makes the call on the slices at place p. */
static int64_t invoke(const struct library *l, const struct call *c, enum place p) {
    switch (c->function) {
    case CHECK_TABLE:
        return l->check_table(A_TABLE);
    case SEARCH:
        return l->search(
            A_TABLE, c->mask, A_SET(STARTS), A_SET(PERMITTED), c->backward, A_SET(SET), COLUMN(NUMBERS), A_SET(WORDS),
            count(COUNT_1, p), count(COUNT_2, p));
    case TRIM:
        return l->trim(
            A_TABLE, c->mask, A_SET(STARTS), A_SET(SET), COLUMN(NUMBERS), A_SET(WORDS), count(COUNT_1, p));
    case DECOMPOSE:
        return l->decompose(
            A_TABLE, c->mask, c->method, c->order, lent(CHOOSER, p), COLUMN(LIST), lent(WAITING, p), c->given[WAITING].len,
            COLUMN(LABEL), COLUMN(NUMBERS), A_SET(WORDS), count(COUNT_1, p));
    case LABEL_TABLE:
        return l->label(A_TABLE, c->mask, COLUMN(LABEL), COLUMN(NUMBERS), A_SET(WORDS));
    case PATH:
        return l->path(
            A_TABLE, c->mask, c->u, c->v, COLUMN(ROOM), COLUMN(NUMBERS), A_SET(WORDS), count(COUNT_1, p));
    case WRITE_CERTIFICATE:
        return l->write_certificate(
            A_TABLE, c->mask, COLUMN(LABEL), COLUMN(RANK), COLUMN(IN_EDGE), COLUMN(IN_DISTANCE), COLUMN(OUT_EDGE),
            COLUMN(OUT_DISTANCE), COLUMN(NUMBERS), A_SET(WORDS));
    case CHECK_CERTIFICATE:
        return l->check_certificate(
            A_TABLE, c->mask, COLUMN(LABEL), COLUMN(RANK), COLUMN(IN_EDGE), COLUMN(IN_DISTANCE), COLUMN(OUT_EDGE),
            COLUMN(OUT_DISTANCE), value(VALUE_1, p), count(COUNT_1, p));
    case SUMMARY:
        return l->summary(c->n, COLUMN(LABEL), value(VALUE_1, p), value(VALUE_2, p), value(VALUE_3, p));
    case READ_TEXT:
        return l->read_text(BYTES(TEXT), COLUMN(SOURCES), COLUMN(TARGETS), count(COUNT_1, p), count(COUNT_2, p));
    case WRITE_LABELS:
        return l->write_labels(COLUMN(LABEL), BYTES(OUT), count(COUNT_1, p));
    default:
        return l->label_text(BYTES(TEXT), BYTES(OUT));
    }
}

int64_t call_library(const struct call *c, enum place p) {
    return invoke(&library, c, p);
}

int64_t call_plain(const struct call *c) {
    return invoke(&plain, c, PLAIN);
}

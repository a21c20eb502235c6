#include "damage.h"
#include "compare.h"
#include "plain.h"
#include "tables.h"

/* The ways that concern a slice: one entry less, one more, none, many more. */
enum { CHANGES = 4 };

static void change_length(struct given *g, size_t change) {
    const size_t lengths[CHANGES] = {g->len - (g->len > 0), g->len + 1, 0, g->len + 100};
    g->len = lengths[change];
}

/* Each of these applies way i of its sort, if there is such a way, and gives the number of its ways. Here: for each slice that the function takes, each change. */
static size_t damage_lengths(struct call *c, size_t i) {
    size_t ways = 0;
    for (int s = 0; s < CHOOSER; s++) {
        if (!takes(c->function, s)) continue;
        if (i / CHANGES == ways / CHANGES) change_length(&c->given[s], i % CHANGES);
        ways += CHANGES;
    }
    return ways;
}

static size_t damage_n(struct call *c, size_t i) {
    const size_t values[] = {c->n + 1, c->n - 1, c->n + 64, 65536, 65537, 65600, SIZE_MAX, ((size_t)1 << 32) + c->n};
    const size_t ways = sizeof values / sizeof *values;
    if (i < ways) c->n = values[i];
    return ways;
}

static size_t damage_choices(struct call *c, size_t i) {
    uint32_t *const choices[] = {&c->method, &c->method, &c->method, &c->order, &c->order, &c->order, &c->kind, &c->kind, &c->kind};
    const uint32_t values[] = {2, 256, 4294967295u, 2, 65536, 4294967295u, 3, 257, 4294967295u};
    const size_t ways = c->function == DECOMPOSE ? sizeof values / sizeof *values : 0;
    if (i < ways) *choices[i] = values[i];
    return ways;
}

static size_t damage_vertices(struct call *c, size_t i) {
    size_t *const vertices[] = {&c->u, &c->v};
    const size_t values[] = {c->n, c->n - 1, SIZE_MAX, (size_t)1 << 32, 65536};
    const size_t ways = c->function == PATH ? 2 * sizeof values / sizeof *values : 0;
    if (i < ways) *vertices[i % 2] = values[i / 2];
    return ways;
}

/* An entry at the front, in the middle or at the end of a column is no vertex, or only just one. */
static size_t damage_entries(struct call *c, size_t i) {
    static const enum slice columns[] = {SOURCES, TARGETS, LABEL};
    const uint32_t values[] = {(uint32_t)c->n, (uint32_t)c->n - 1, 4294967295u};
    const size_t ways = 27;
    if (i >= ways) return ways;
    enum slice s = columns[i % 3];
    size_t len = c->given[s].len, entries[] = {0, len / 2, len - (len > 0)};
    spoil(c, s, entries[i / 9], values[i / 3 % 3]);
    return ways;
}

/* A kind at the front, in the middle or at the end is above 7, or only just not; the last three bits of it may be a kind that counts or one that does not. */
static size_t damage_kinds(struct call *c, size_t i) {
    static const uint32_t values[] = {7, 8, 12, 255};
    const size_t ways = takes(c->function, KINDS) ? 12 : 0;
    if (i >= ways) return ways;
    size_t len = c->given[KINDS].len, entries[] = {0, len / 2, len - (len > 0)};
    spoil(c, KINDS, entries[i / 4], values[i % 4]);
    return ways;
}

/* Applies damage number i; false if there is no such damage. */
static bool damage(struct call *c, size_t i) {
    static size_t (*const sorts[])(struct call *, size_t) = {
        damage_lengths, damage_n, damage_choices, damage_vertices, damage_entries, damage_kinds};
    for (size_t k = 0; k < sizeof sorts / sizeof *sorts; k++) {
        size_t ways = sorts[k](c, i);
        if (i < ways) return true;
        i -= ways;
    }
    return false;
}

static void damage_twice(const struct call *c) {
    struct call once = *c, twice;
    for (size_t i = 0; damage(&once, i); i++, once = *c) {
        compare(&once);
        twice = once;
        for (size_t k = 0; k < i && damage(&twice, k); k++, twice = once) compare(&twice);
    }
}

/* A call on the current table, with drawn kinds and mask and every slice as long as it has to be: done, or a path's 11, if the table is within the limits. */
static struct call sound_call(enum function f) {
    static uint32_t columns[OUT_DISTANCE + 1][MOST_N + 1], numbers[12 * MOST_N + 2 * MOST_M + 16];
    static uint64_t words[6 * MOST_N / 64];
    draw_kinds();
    struct call c = call_on_table(f);
    size_t n = table.n, m = table.m;
    if (plain_check_table(n, table.sources, m, table.targets, m, table.kinds, m) == 0) {
        struct graph g = graph_of_table();
        ways_for(n)->labels(&g, columns[LABEL]);
        plain_write_certificate(
            n, table.sources, m, table.targets, m, table.kinds, m, table.mask, columns[LABEL], n, columns[RANK], n, columns[IN_EDGE], n,
            columns[IN_DISTANCE], n, columns[OUT_EDGE], n, columns[OUT_DISTANCE], n, numbers, tinoweala_numbers(n, m), words, tinoweala_words(n));
    }
    for (int s = LABEL; s <= OUT_DISTANCE; s++) {
        /* who writes the labels does not find them there: written before a refusal they would not be seen */
        bool read = f == CHECK_CERTIFICATE || (s == LABEL && f != DECOMPOSE && f != LABEL_TABLE);
        if (read) give(&c, s, columns[s], n);
    }
    give(&c, LIST, columns[LABEL], n);
    c.v = n > 0 ? n - 1 : 0;
    c.kind = (uint32_t)below(3);
    return c;
}

void damaged_calls(enum function f) {
    static const size_t sizes[] = {1, 63, 64, 65};
    struct call c;
    begin_table("no vertex", 0);
    c = sound_call(f);
    damage_twice(&c);
    make_T();
    c = sound_call(f);
    damage_twice(&c);
    for (size_t i = 0; i < sizeof sizes / sizeof *sizes; i++) {
        make_table(&families[below(family_count)], sizes[i]);
        c = sound_call(f);
        damage_twice(&c);
    }
}

/* One way for each refusal that can be put on a call, in the order in which they are tested: 1, 2, 21, 4, 22, then those that are not of the table. */
enum { ON_TABLE = 5, ON_CALL = 11 };

static void lengthen_columns(struct call *c) {
    for (int s = STARTS; s <= SET; s++) c->given[s].len++;
    for (int s = LABEL; s <= OUT_DISTANCE; s++) c->given[s].len++;
}

static void refuse(struct call *c, size_t i) {
    const size_t m = c->given[SOURCES].len, uneven[] = {m - 1, m + 1, 0};
    const enum slice ends = below(2) ? SOURCES : TARGETS;
    switch (i) {
    case 0: c->n = MOST_N + 1; break;
    case 1: c->given[TARGETS].len--; break;
    case 2: c->given[KINDS].len = uneven[below(3)]; break;
    case 3: spoil(c, ends, below(m), UINT32_C(4294967295)); break;
    case 4: spoil(c, KINDS, below(m), 8 + (uint32_t)below(248)); break;
    case 5: lengthen_columns(c); break;
    case 6: c->given[NUMBERS].len = 0; break;
    case 7: c->given[WAITING].len = 0; break;
    case 8: c->method = 2; break;
    case 9: c->u = c->n; break;
    case 10: c->given[ROOM].len = 0; break;
    }
}

/* Puts on the call the refusals whose bits are 1 in x, and any mask, which changes none of them but 10 to 12. */
static void compare_refused(const struct call *c, size_t x) {
    struct call refused = *c;
    refused.mask = (uint8_t)drawn();
    for (size_t i = 0; i < ON_CALL; i++) {
        if (x >> i & 1) refuse(&refused, i);
    }
    compare(&refused);
}

void calls_refused_in_every_way(enum function f) {
    make_T();
    struct call c = sound_call(f);
    c.v = 1; /* of a path: one edge away, if it counts, so that a room of 0 is too short; else 11 */
    for (size_t x = 0; x < 1 << ON_CALL; x++) compare_refused(&c, x);
    begin_table("three vertices, too many edges", 3);
    while (table.m <= MOST_M) edge(table.m % 3, below(3));
    c = sound_call(f);
    lengthen_columns(&c); /* 5 and 6 stand behind 3 */
    c.given[NUMBERS].len = 0;
    for (size_t x = 0; x < 1 << ON_TABLE; x++) compare_refused(&c, x);
}

static size_t ways_to_damage(const struct call *c) {
    struct call spoilt = *c;
    size_t ways = 0;
    for (; damage(&spoilt, ways); spoilt = *c) ways++;
    return ways;
}

/* The call itself, and damaged in one or two drawn ways. */
static void compare_damaged(const struct call *c, size_t rounds) {
    const size_t ways = ways_to_damage(c);
    compare(c);
    for (size_t i = 0; i < rounds; i++) {
        struct call spoilt = *c;
        damage(&spoilt, below(ways));
        if (below(2)) damage(&spoilt, below(ways));
        compare(&spoilt);
    }
}

void calls_past_the_limits(enum function f) {
    struct call c;
    for (size_t n = MOST_N; n <= MOST_N + 1; n++) {
        begin_table("no edge, many vertices", n);
        c = sound_call(f);
        compare_damaged(&c, 10);
    }
    for (size_t m = MOST_M; m <= MOST_M + 1; m++) {
        begin_table("three vertices, many edges", 3);
        while (table.m < m) edge(table.m % 3, below(3));
        c = sound_call(f);
        compare_damaged(&c, 10);
    }
}

#include "tables.h"

struct table table;
static uint64_t state;

void restart_draws(void) {
    state = UINT64_C(88172645463325252);
}

uint64_t drawn(void) {
    state ^= state << 13;
    state ^= state >> 7;
    state ^= state << 17;
    return state;
}

size_t below(size_t k) {
    return (size_t)(drawn() >> 16) % k;
}

void begin_table(const char *name, size_t n) {
    table.name = name;
    table.nested = false;
    table.n = n;
    table.m = 0;
    table.mask = 255;
}

void edge(size_t from, size_t to) {
    table.sources[table.m] = (uint32_t)from;
    table.targets[table.m] = (uint32_t)to;
    table.kinds[table.m] = 0;
    table.m++;
}

static uint8_t bit(size_t kind) {
    return (uint8_t)(1 << kind);
}

/* One kind is the most frequent; of four edges none, some or all are of any kind. */
void draw_kinds(void) {
    size_t most = below(8), of_any = below(5);
    const uint8_t any = (uint8_t)drawn(), one = bit(below(8));
    const uint8_t masks[] = {255, 255, 0, bit(most), one, (uint8_t)~one, (uint8_t)~one, any, any | bit(most)};
    table.mask = masks[below(sizeof masks)];
    for (size_t e = 0; e < table.m; e++) table.kinds[e] = (uint8_t)(below(4) < of_any ? below(8) : most);
}

struct graph graph_of_table(void) {
    return (struct graph){table.n, table.m, table.sources, table.targets, table.kinds, table.mask};
}

bool table_is_tiny(void) {
    return table.n <= 3 && table.m <= 2;
}

bool table_is_large(void) {
    return table.n > 1000;
}

size_t rounds(size_t most) {
    return table_is_large() || table.n <= 4 ? (most + 3) / 4 : most;
}

void make_T(void) {
    static const uint32_t sources[] = {0, 1, 2, 2, 3, 4, 5}, targets[] = {1, 2, 0, 3, 4, 3, 5};
    begin_table("T", 6);
    for (size_t e = 0; e < 7; e++) edge(sources[e], targets[e]);
}

/* The table of m edges that the digits of x to the base n * n name. */
static void numbered_table(size_t n, size_t m, size_t x) {
    begin_table("numbered", n);
    for (; m > 0; m--, x /= n * n) edge(x % (n * n) / n, x % n);
}

/* The set of edges that the bits of x name, loops left out or not. */
static void numbered_set(size_t n, bool loops, size_t x) {
    begin_table("numbered set", n);
    for (size_t u = 0; u < n; u++) {
        for (size_t v = 0; v < n; v++) {
            if (u == v && !loops) continue;
            if (x & 1) edge(u, v);
            x >>= 1;
        }
    }
}

/* Draws kinds and a mask that has some of them and not others, such that edge e counts if bit e of x is 1. */
static void count_edges(size_t x) {
    table.mask = (uint8_t)(1 + below(254));
    for (size_t e = 0; e < table.m; e++) {
        size_t kind = below(8);
        while ((table.mask >> kind & 1) != (x >> e & 1)) kind = below(8);
        table.kinds[e] = (uint8_t)kind;
    }
}

static void ask_with_masks(void (*ask)(void)) {
    draw_kinds();
    ask();
    table.mask = 255;
    ask();
    for (size_t x = 0; table.m <= 2 && x < (size_t)1 << table.m; x++) {
        count_edges(x);
        ask();
    }
}

void all_small_tables(void (*ask)(void)) {
    begin_table("no vertex", 0);
    ask_with_masks(ask);
    for (size_t n = 1; n <= 3; n++) {
        size_t many = 1;
        for (size_t m = 0; m <= 4; m++, many *= n * n) {
            for (size_t x = 0; x < many; x++) {
                numbered_table(n, m, x);
                ask_with_masks(ask);
            }
        }
    }
    for (size_t x = 0; x < 1 << 9; x++) {
        numbered_set(3, true, x);
        draw_kinds();
        ask();
    }
    for (size_t x = 0; x < 1 << 12; x++) {
        numbered_set(4, false, x);
        draw_kinds();
        table.mask = 255;
        ask();
    }
}

void structured_tables(void (*ask)(void)) {
    static const size_t sizes[] = {1, 2, 3, 5, 8, 13, 30, 63, 64, 65, 127, 128, 129, 192, 200};
    for (size_t f = 0; f < family_count; f++) {
        for (size_t i = 0; i < sizeof sizes / sizeof *sizes; i++) {
            make_table(&families[f], sizes[i]);
            draw_kinds();
            ask();
        }
    }
}

/* Edges anywhere, or few steps away, or mostly upward; so there are few components, many, or mostly single vertices. */
static void drawn_table(size_t n, size_t m) {
    size_t sort = below(3), reach = 1 + below(6);
    begin_table("drawn", n);
    while (table.m < m) {
        size_t u = below(n), v = below(n);
        if (sort == 1) v = (u + below(2 * reach + 1) + n - reach % n) % n;
        if (sort == 2 && v < u && below(8) > 0) v = u + below(n - u);
        edge(u, v);
    }
}

static void so_many_drawn_tables(void (*ask)(void), size_t times, size_t most) {
    while (times-- > 0) {
        size_t n = 1 + below(most);
        drawn_table(n, below(3 * n + 1));
        draw_kinds();
        ask();
    }
}

void drawn_tables(void (*ask)(void)) {
    so_many_drawn_tables(ask, 3000, 12);
    so_many_drawn_tables(ask, 1000, 40);
    so_many_drawn_tables(ask, 300, 200);
}

void some_drawn_tables(void (*ask)(void)) {
    so_many_drawn_tables(ask, 120, 12);
    so_many_drawn_tables(ask, 60, 40);
    so_many_drawn_tables(ask, 20, 200);
}

void largest_tables(void (*ask)(void)) {
    for (size_t f = 0; f < family_count; f++) {
        make_table(&families[f], MOST_N);
        draw_kinds();
        if (f % 4 > 0) table.mask = 255;
        ask();
    }
}

void deep_tables(void (*ask)(void)) {
    for (size_t f = 0; f < deep_family_count; f++) {
        make_table(&deep_families[f], MOST_N);
        ask();
    }
}

#include "on_tables.h"
#include "compare.h"
#include "tables.h"
#include <string.h>

enum { SET_WORDS = MOST_N / 64 };

void ask_check_table(void) {
    struct call c = call_on_table(CHECK_TABLE);
    compare(&c);
    for (size_t i = 0; table.m > 0 && i < rounds(12); i++) {
        struct call spoilt = c;
        size_t values[] = {table.n - 1, table.n, table.n + below(9), UINT32_C(4294967295)}, kinds[] = {7, 8, below(256), 255};
        if (below(3)) spoil(&spoilt, below(2) ? SOURCES : TARGETS, below(3) ? below(table.m) : table.m - 1, (uint32_t)values[below(4)]);
        if (below(3)) spoil(&spoilt, KINDS, below(3) ? below(table.m) : table.m - 1, (uint32_t)kinds[below(4)]);
        compare(&spoilt);
    }
}

/* A set: nothing, everything, one vertex, or drawn with more or fewer vertices. What stands at n and above is drawn too. */
static void draw_set(uint64_t *set) {
    size_t sort = below(6), one = table.n > 0 ? below(table.n) : 0;
    for (size_t i = 0; i < tinoweala_set_words(table.n); i++) {
        uint64_t x = drawn(), y = drawn(), z = drawn();
        uint64_t sorts[] = {0, ~UINT64_C(0), i == one / 64 ? UINT64_C(1) << one % 64 : 0, x, x | y | z, x & y & z};
        set[i] = sorts[sort];
    }
}

static void search(const uint64_t *starts, const uint64_t *permitted, bool backward) {
    struct call c = call_on_table(SEARCH);
    give(&c, STARTS, starts, c.given[STARTS].len);
    give(&c, PERMITTED, permitted, c.given[PERMITTED].len);
    c.backward = backward;
    if (below(2)) lend_more(&c);
    compare(&c);
}

static void all_searches(void) {
    size_t sets = (size_t)1 << table.n;
    for (size_t x = 0; x < 2 * sets * sets; x++) {
        uint64_t starts = x % sets | drawn() << table.n, permitted = x / sets % sets | drawn() << table.n;
        search(&starts, &permitted, x / sets / sets);
    }
}

void ask_search(void) {
    static uint64_t starts[SET_WORDS], permitted[SET_WORDS];
    if (table_is_tiny()) all_searches();
    for (size_t i = 0; i < rounds(4); i++) {
        draw_set(starts);
        draw_set(permitted);
        search(starts, permitted, false);
        search(starts, permitted, true);
    }
}

static void trim(const uint64_t *part) {
    struct call c = call_on_table(TRIM);
    give(&c, STARTS, part, c.given[STARTS].len);
    if (below(2)) lend_more(&c);
    compare(&c);
}

static void all_trims(void) {
    for (size_t x = 0; x < (size_t)1 << table.n; x++) {
        uint64_t part = x | drawn() << table.n;
        trim(&part);
    }
}

void ask_trim(void) {
    static uint64_t part[SET_WORDS];
    if (table.n <= 3) all_trims();
    for (size_t i = 0; i < rounds(4); i++) {
        draw_set(part);
        trim(part);
    }
    memset(part, 255, sizeof part);
    trim(part);
}

size_t draw_list(uint32_t *list) {
    size_t sort = below(5), len = sort == 0 ? 0 : sort == 2 ? 1 : sort == 1 ? table.n : below(table.n + 3);
    for (size_t i = 0; i < len; i++) {
        uint32_t falling = (uint32_t)(table.n - 1 - i), any = (uint32_t)below(table.n + 1);
        list[i] = sort <= 2 ? falling : sort == 3 ? any : below(3) ? (uint32_t)drawn() : any;
    }
    return len;
}

static void decompose(uint32_t method, uint32_t kind, uint32_t order) {
    static uint32_t list[MOST_N + 3];
    struct call c = call_on_table(DECOMPOSE);
    bool slow = table_is_large() && table.nested && kind != 1;
    c.method = slow ? 1 : method;
    c.kind = kind;
    c.order = order;
    c.state = below(4) ? (uint32_t)drawn() : 0;
    give(&c, LIST, list, draw_list(list));
    if (below(2)) lend_more(&c);
    compare(&c);
}

/* Both methods, three pivot kinds and both orders; of a large table two or three of the twelve. */
void ask_decompose(void) {
    size_t first = table_is_large() ? below(5) : 0, step = table_is_large() ? 5 : 1;
    for (size_t i = first; i < 12; i += step) decompose(i % 2, i / 2 % 3, i / 6);
}

static void path(size_t u, size_t v, size_t room) {
    struct call c = call_on_table(PATH);
    c.u = u;
    c.v = v;
    if (below(2)) lend_more(&c);
    give(&c, ROOM, NULL, room);
    compare(&c);
}

/* With room enough; then, if there is a path, with just enough and with one less. */
static void paths(size_t u, size_t v) {
    path(u, v, table.n + below(3));
    if (result() != 0) return;
    size_t length = *(const size_t *)left_in(COUNT_1);
    path(u, v, length);
    if (length > 0) path(u, v, below(2) ? length - 1 : below(length));
}

void ask_path(void) {
    size_t n = table.n;
    if (n == 0) path(0, 0, 0);
    for (size_t x = 0; n <= 3 && x < n * n; x++) paths(x / n, x % n);
    for (size_t i = 0; n > 3 && i < rounds(5); i++) paths(i == 0 ? 0 : below(n), i == 0 ? n - 1 : below(n));
}

#include "on_tables.h"
#include "compare.h"
#include "tables.h"
#include <string.h>

static uint32_t columns[OUT_DISTANCE + 1][MOST_N];

static void set_right_labels(void) {
    struct graph g = graph_of_table();
    ways_for(table.n)->labels(&g, columns[LABEL]);
}

static struct call writing(void) {
    struct call c = call_on_table(WRITE_CERTIFICATE);
    give(&c, LABEL, columns[LABEL], table.n);
    if (below(2)) lend_more(&c);
    return c;
}

/* Every column of labels, with one that is no vertex, on a very small table. */
static void all_label_columns(void) {
    size_t many = 1;
    for (size_t v = 0; v < table.n; v++) many *= table.n + 1;
    for (size_t x = 0; x < many; x++) {
        size_t rest = x;
        for (size_t v = 0; v < table.n; v++, rest /= table.n + 1) columns[LABEL][v] = (uint32_t)(rest % (table.n + 1));
        struct call c = writing();
        compare(&c);
    }
}

/* The labels with another mask, which may be as right as those with the table's own. */
static void write_with_another_mask(void) {
    struct call c = writing();
    c.mask = below(3) ? (uint8_t)drawn() : 255;
    compare(&c);
}

/* The right labels, then some with wrong entries. */
void ask_write_certificate(void) {
    if (table_is_tiny()) all_label_columns();
    set_right_labels();
    struct call c = writing();
    compare(&c);
    for (size_t i = 0; table.n > 0 && i < rounds(4); i++) {
        struct call wrong = writing();
        size_t v = below(table.n), values[] = {v, below(table.n), below(v + 1), table.n, UINT32_C(4294967295), columns[LABEL][v] + 1};
        spoil(&wrong, LABEL, v, (uint32_t)values[below(6)]);
        compare(&wrong);
    }
    if (!table_is_large()) write_with_another_mask();
}

/* Fills the columns with the right labels and what is written for them; false if that failed. */
static bool certify(void) {
    set_right_labels();
    struct call c = writing();
    compare(&c);
    if (!all_agreed() || result() != 0) return false;
    for (int s = RANK; s <= OUT_DISTANCE; s++) memcpy(columns[s], left_in(s), table.n * sizeof *columns[s]);
    return true;
}

static struct call checking(void) {
    struct call c = call_on_table(CHECK_CERTIFICATE);
    for (int s = LABEL; s <= OUT_DISTANCE; s++) give(&c, s, columns[s], table.n);
    return c;
}

enum { VALUES = 9 };

/* A value for the cell of a column. */
static uint32_t other_value(enum slice s, size_t v, size_t i) {
    uint32_t is = columns[s][v];
    size_t values[VALUES] = {0, table.n - 1, table.n, table.m - 1, table.m, UINT32_C(4294967295), is + 1, is - 1, below(table.n + table.m)};
    return (uint32_t)values[i];
}

static void spoil_all_cells(void) {
    for (int s = LABEL; s <= OUT_DISTANCE; s++) {
        for (size_t x = 0; x < table.n * VALUES; x++) {
            struct call c = checking();
            spoil(&c, s, x / VALUES, other_value(s, x / VALUES, x % VALUES));
            compare(&c);
        }
    }
}

/* Spoils one cell, or several. */
static void spoil_some_cells(void) {
    struct call c = checking();
    for (size_t i = 1 + below(4) / 2; i > 0; i--) {
        enum slice s = LABEL + (enum slice)below(6);
        size_t v = below(table.n);
        spoil(&c, s, v, other_value(s, v, below(VALUES)));
    }
    compare(&c);
}

/* Spoils the distances at both ends of an in-edge or out-edge, so that they still follow each other, if only modulo 2^32. */
static void spoil_along_an_edge(void) {
    struct call c = checking();
    bool in = below(2);
    size_t v = below(table.n), values[] = {table.n - 2, table.n - 1, UINT32_C(4294967294), UINT32_C(4294967295), below(table.n)};
    uint32_t e = columns[in ? IN_EDGE : OUT_EDGE][v], value = (uint32_t)values[below(5)];
    if (e >= table.m) return;
    spoil(&c, in ? IN_DISTANCE : OUT_DISTANCE, (in ? table.sources : table.targets)[e], value);
    spoil(&c, in ? IN_DISTANCE : OUT_DISTANCE, v, value + 1);
    compare(&c);
}

/* Any edge between vertices of one label becomes an in-edge or out-edge, with the distance that fits it if it counts. */
static void spoil_by_another_edge(void) {
    struct call c = checking();
    if (table.m == 0) return;
    size_t e = below(table.m);
    bool in = below(2);
    uint32_t v = (in ? table.targets : table.sources)[e], from = (in ? table.sources : table.targets)[e];
    if (columns[LABEL][v] == v || columns[LABEL][from] != columns[LABEL][v]) return;
    spoil(&c, in ? IN_EDGE : OUT_EDGE, v, (uint32_t)e);
    spoil(&c, in ? IN_DISTANCE : OUT_DISTANCE, v, columns[in ? IN_DISTANCE : OUT_DISTANCE][from] + 1);
    compare(&c);
}

static void check_with_another_mask(void) {
    struct call c = checking();
    c.mask = below(3) ? (uint8_t)drawn() : 255;
    compare(&c);
}

void ask_check_certificate(void) {
    if (!certify()) return;
    struct call c = checking();
    compare(&c);
    if (result() == 0 && *(const uint32_t *)left_in(VALUE_1) != 0) fail("what the writer writes is not accepted");
    if (table.n == 0) return;
    if (table.n <= 3 && table.m <= 2 + below(2)) spoil_all_cells();
    for (size_t i = 0; i < rounds(8); i++) {
        spoil_some_cells();
        if (below(2)) {
            spoil_along_an_edge();
        } else {
            spoil_by_another_edge();
        }
    }
    if (!table_is_large()) check_with_another_mask();
}

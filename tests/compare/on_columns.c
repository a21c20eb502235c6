#include "on_columns.h"
#include "compare.h"
#include "tables.h"

static uint32_t label[MOST_N + 1];

static void summary(size_t n) {
    struct call c = call_without_table(SUMMARY);
    c.n = n;
    give(&c, LABEL, label, n);
    compare(&c);
}

static void write_labels(size_t n, size_t room) {
    struct call c = call_without_table(WRITE_LABELS);
    give(&c, LABEL, label, n);
    give(&c, OUT, NULL, room);
    compare(&c);
}

/* With more room than needed, since a label plus one has at most 10 digits; then, if the file is written, with just enough, one less and none. */
static void write_labels_with_rooms(size_t n) {
    write_labels(n, 64 + 11 * n + below(9));
    if (result() != 0) return;
    size_t bytes = *(const size_t *)left_in(COUNT_1);
    write_labels(n, bytes);
    write_labels(n, bytes - 1);
    write_labels(n, below(bytes));
}

static void ask(enum function f, size_t n) {
    if (f == SUMMARY) {
        summary(n);
    } else {
        write_labels_with_rooms(n);
    }
}

/* Every column of up to 5 labels, each a vertex or n. */
void all_small_columns(enum function f) {
    for (size_t n = 0; n <= 5; n++) {
        size_t many = 1;
        for (size_t v = 0; v < n; v++) many *= n + 1;
        for (size_t x = 0; x < many; x++) {
            size_t rest = x;
            for (size_t v = 0; v < n; v++, rest /= n + 1) label[v] = (uint32_t)(rest % (n + 1));
            ask(f, n);
        }
    }
}

/* Labels that are shared by few or by many; now and then one that is no vertex. */
static void draw_column(size_t n) {
    size_t different = 1 + below(n), faulty = below(4) ? n : below(n);
    for (size_t v = 0; v < n; v++) label[v] = (uint32_t)(n - 1 - below(different));
    if (faulty < n) label[faulty] = below(2) ? (uint32_t)n : (uint32_t)drawn();
}

/* Labels of any width, many of them where the number of digits of a label plus one changes. */
static void draw_wide_column(size_t n) {
    static const uint32_t changes[] = {0, 8, 9, 98, 99, 998, 999, 9998, 9999, 99998, 99999, 999998, 999999, 9999998, 9999999, 99999998, 99999999,
                                       999999998, 999999999, 4294967293u, 4294967294u, 4294967295u};
    for (size_t v = 0; v < n; v++) {
        label[v] = below(2) ? changes[below(sizeof changes / sizeof *changes)] : (uint32_t)drawn() >> below(32);
    }
}

void drawn_columns(enum function f) {
    for (size_t i = 0; i < 3000; i++) {
        size_t n = 1 + below(i % 10 ? 20 : 400);
        if (f == WRITE_LABELS && i % 2) {
            draw_wide_column(n);
        } else {
            draw_column(n);
        }
        ask(f, n);
    }
}

/* Steps of labels: each its own, all 0, shared by two, drawn, and such that only the last label of 4,096 is used. */
void largest_columns(enum function f) {
    for (size_t n = MOST_N - 1; n <= MOST_N + 1; n++) {
        for (size_t sort = 0; sort < 6; sort++) {
            for (size_t v = 0; v < n; v++) {
                size_t labels[] = {v, 0, v / 2 * 2, below(n), v / 4096 * 4096 + 4095, n - 1};
                label[v] = (uint32_t)(labels[sort] < n ? labels[sort] : 0);
            }
            ask(f, n);
        }
        label[n - 1] = (uint32_t)n;
        ask(f, n);
    }
}

#include "on_tables.h"
#include "compare.h"
#include "tables.h"
#include <string.h>

/* The edges that count with a mask. Their numbers among themselves are by their numbers in the table; another edge has a number that is no edge's. */
enum { NONE_COUNTED = MOST_M };
static size_t counted;
static uint32_t sources[MOST_M], targets[MOST_M], number[MOST_M];

static void find_counted(uint8_t mask) {
    static const uint8_t bits[] = {1, 2, 4, 8, 16, 32, 64, 128};
    counted = 0;
    for (size_t e = 0; e < table.m; e++) {
        number[e] = NONE_COUNTED;
        if ((mask & bits[table.kinds[e]]) == 0) continue;
        sources[counted] = table.sources[e];
        targets[counted] = table.targets[e];
        number[e] = (uint32_t)counted++;
    }
}

static uint32_t renumbered(uint32_t e) {
    return e == TINOWEALA_NO_EDGE ? e : e < table.m ? number[e] : NONE_COUNTED;
}

static void renumber(const uint32_t *from, size_t len, uint32_t *to) {
    for (size_t i = 0; i < len; i++) to[i] = renumbered(from[i]);
}

/* The call with edge numbers among the counted ones where the checker reads such numbers. */
static void renumber_certificate(struct call *c) {
    static uint32_t in_edge[MOST_N], out_edge[MOST_N];
    if (c->function != CHECK_CERTIFICATE) return;
    renumber(c->given[IN_EDGE].content, c->n, in_edge);
    renumber(c->given[OUT_EDGE].content, c->n, out_edge);
    give(c, IN_EDGE, in_edge, c->n);
    give(c, OUT_EDGE, out_edge, c->n);
    for (struct spoil *s = c->spoils; s < c->spoils + c->spoil_count; s++) {
        if (s->slice == IN_EDGE || s->slice == OUT_EDGE) s->value = renumbered(s->value);
    }
}

static struct call on_counted(const struct call *c) {
    static const uint8_t zeros[MOST_M];
    struct call other = *c;
    find_counted(c->mask);
    give(&other, SOURCES, sources, counted);
    give(&other, TARGETS, targets, counted);
    give(&other, KINDS, zeros, counted);
    other.mask = 255;
    renumber_certificate(&other);
    return other;
}

/* What calls write, or the columns that they are given; of a path only its edges, of the list of waiting parts only the needed front. */
static const enum slice answers[] = {
    SET, WAITING, LABEL, RANK, IN_EDGE, IN_DISTANCE, OUT_EDGE, OUT_DISTANCE, ROOM, CHOOSER, COUNT_1, COUNT_2, VALUE_1};
enum { ANSWERS = sizeof answers / sizeof *answers };
typedef uint32_t answer[ANSWERS][2 * MOST_N];

static size_t answer_bytes(const struct call *c, enum slice s) {
    size_t len = s == ROOM ? *(const size_t *)left_in(COUNT_1) : s == WAITING ? c->n : c->given[s].len;
    return takes(c->function, s) ? len * entry_size[s] : 0;
}

static void keep_answer(const struct call *c, answer to) {
    for (size_t i = 0; i < ANSWERS; i++) memcpy(to[i], left_in(answers[i]), answer_bytes(c, answers[i]));
}

/* The answer with edge numbers among the counted ones: in-edges, out-edges, the edges of a path, and the place of check 5. */
static void renumber_answer(const struct call *c, answer a) {
    bool at_edge = c->function == CHECK_CERTIFICATE && *(const uint32_t *)left_in(VALUE_1) == 5;
    for (size_t i = 0; i < ANSWERS; i++) {
        enum slice s = answers[i];
        if (s == IN_EDGE || s == OUT_EDGE || s == ROOM) renumber(a[i], answer_bytes(c, s) / sizeof *a[i], a[i]);
        if (s == COUNT_1 && at_edge) renumber(a[i], 1, a[i]);
    }
}

/* Compares the call on the counted edges alone, and the call itself; then one's answer with the other's. */
static void compare_both(const struct call *c) {
    static answer of_call, of_other;
    struct call other = on_counted(c);
    compare_once(&other);
    if (!all_agreed()) return;
    int64_t is, want = result();
    if (want == 0) keep_answer(&other, of_other);
    compare_once(c);
    is = result();
    agree("result with counted edges alone", &is, &want, sizeof is);
    if (!all_agreed() || is != 0) return;
    keep_answer(c, of_call);
    renumber_answer(c, of_call);
    for (size_t i = 0; i < ANSWERS; i++) agree("answer with counted edges alone", of_call[i], of_other[i], answer_bytes(c, answers[i]));
}

void ask_counted_alone(void) {
    compare_by(compare_both);
    ask_search();
    ask_trim();
    ask_decompose();
    ask_label();
    ask_path();
    ask_write_certificate();
    ask_check_certificate();
}

void ask_full_mask(void) {
    table.mask = 255;
    ask_counted_alone();
}

void ask_empty_mask(void) {
    table.mask = 0;
    ask_counted_alone();
}

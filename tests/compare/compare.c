#include "compare.h"
#include "course.h"
#include "plain.h"
#include "tables.h"
#include <stdio.h>
#include <string.h>

/* From so many lent bytes on, the library is called at one place only. */
enum { MUCH = 1 << 20 };

static struct call current;
static enum place current_place;
static int64_t wanted;
static unsigned long calls;
static bool agreed;
static void (*compared_by)(const struct call *c);
static uint32_t numbers[FUNCTIONS], checks;

static const char *const function_names[FUNCTIONS] = {
    "check_table", "search", "trim", "decompose", "label", "path", "write_certificate", "check_certificate", "summary", "read_text", "write_labels", "label_text"};
static const char *const slice_names[SLICES] = {
    "sources", "targets", "kinds", "starts", "permitted", "set", "list", "waiting", "label", "rank", "in_edge", "in_distance", "out_edge", "out_distance", "room",
    "numbers", "words", "text", "out", "chooser", "first size", "second size", "first number", "second number", "third number"};

void begin_calls(void) {
    calls = 0;
    agreed = true;
    compare_by(compare_once);
}

unsigned long calls_made(void) {
    return calls;
}

bool all_agreed(void) {
    return agreed;
}

uint32_t numbers_given(enum function f) {
    return numbers[f];
}

uint32_t checks_failed(void) {
    return checks;
}

const char *name_of(enum function f) {
    return function_names[f];
}

int64_t result(void) {
    return wanted;
}

const void *left_in(enum slice s) {
    return lent(s, PLAIN);
}

static void say_table(void) {
    const uint32_t *from = lent(SOURCES, PLAIN), *to = lent(TARGETS, PLAIN);
    const uint8_t *kinds = lent(KINDS, PLAIN);
    size_t m = current.given[SOURCES].len;
    if (m > current.given[TARGETS].len) m = current.given[TARGETS].len;
    printf("    edges:");
    for (size_t e = 0; e < m && e < 500; e++) printf(" %u>%u", from[e], to[e]);
    printf("%s\n", m > 500 ? " .." : "");
    printf("    mask %u, kinds:", current.mask);
    for (size_t e = 0; e < current.given[KINDS].len && e < 500; e++) printf(" %u", kinds[e]);
    printf("%s\n", current.given[KINDS].len > 500 ? " .." : "");
}

static void say_text(void) {
    const uint8_t *text = lent(TEXT, PLAIN);
    size_t len = current.given[TEXT].len;
    printf("    text: ");
    for (size_t i = 0; i < len && i < 2000; i++) printf(text[i] > 32 && text[i] < 127 ? "%c" : "<%02x>", text[i]);
    printf("%s\n", len > 2000 ? " .." : "");
}

void say_call(void) {
    const struct call *c = &current;
    printf("    call %lu, %s, %s place, table '%s'\n", calls, function_names[c->function], current_place == LOW ? "low" : "high", table.name);
    printf(
        "    n = %lu, u = %lu, v = %lu, method %u, order %u, kind %u, state %u, %s\n", (unsigned long)c->n, (unsigned long)c->u, (unsigned long)c->v,
        c->method, c->order, c->kind, c->state, c->backward ? "backward" : "forward");
    printf("    entries:");
    for (int s = 0; s < SLICES; s++) {
        if (takes(c->function, s)) printf(" %s %lu", slice_names[s], (unsigned long)c->given[s].len);
    }
    printf("\n");
    for (size_t i = 0; i < c->spoil_count; i++) {
        printf("    spoilt: %s at %lu by %u\n", slice_names[c->spoils[i].slice], (unsigned long)c->spoils[i].entry, c->spoils[i].value);
    }
    if (takes(c->function, KINDS)) say_table();
    if (takes(c->function, TEXT)) say_text();
}

void fail(const char *what) {
    if (agreed) {
        printf("  %s\n", what);
        say_call();
    }
    agreed = false;
}

void agree(const char *what, const void *is, const void *want, size_t bytes) {
    if (!agreed) return;
    calls++;
    if (memcmp(is, want, bytes) == 0) return;
    printf("  %s: not the same, table '%s' of %lu vertices and %lu edges\n", what, table.name, (unsigned long)table.n, (unsigned long)table.m);
    agreed = false;
}

static void lay_slice(const struct call *c, enum slice s) {
    const struct given *g = &c->given[s];
    size_t held = g->held < g->len ? g->held : g->len;
    lay(s, g->len * entry_size[s]);
    if (held > 0) memcpy(lent(s, PLAIN), g->content, held * entry_size[s]);
    if (s == CHOOSER) *(struct tinoweala_chooser *)lent(s, PLAIN) = (struct tinoweala_chooser){c->kind, c->state};
}

static void put_spoil(const struct call *c, const struct spoil *s) {
    if (s->entry >= c->given[s->slice].len || !takes(c->function, s->slice)) return;
    if (entry_size[s->slice] == 1) {
        ((uint8_t *)lent(s->slice, PLAIN))[s->entry] = (uint8_t)s->value;
    } else {
        ((uint32_t *)lent(s->slice, PLAIN))[s->entry] = s->value;
    }
}

/* Lays all slices of the call; gives the number of bytes lent. */
static size_t lay_all(const struct call *c) {
    size_t bytes = 0;
    for (int s = 0; s < SLICES; s++) {
        if (!takes(c->function, s)) continue;
        lay_slice(c, s);
        bytes += c->given[s].len * entry_size[s];
    }
    for (size_t i = 0; i < c->spoil_count; i++) put_spoil(c, &c->spoils[i]);
    return bytes;
}

/*
 * The draws of pivot kind 1, and the state after them: as many as a course of the small table makes. Of a large one only the bounds are known, at least one for each component
 * of two or more vertices and at most 2 n, and within them the library decides.
 */
static void judge_draws(const struct call *c, enum place p) {
    uint32_t own, rings, largest;
    if (c->function != DECOMPOSE || c->kind != 1 || wanted != 0) return;
    size_t draws = *(size_t *)lent(COUNT_1, p);
    if (c->n <= MOST_COURSE) {
        struct graph g = {c->n, c->given[SOURCES].len, lent(SOURCES, PLAIN), lent(TARGETS, PLAIN), lent(KINDS, PLAIN), c->mask};
        draws = course_draws(&g, c->method, c->order, c->state);
    } else {
        plain_summary(c->n, lent(LABEL, PLAIN), c->n, &own, &rings, &largest);
        if (draws < rings || draws > 2 * c->n) draws = rings;
    }
    *(size_t *)lent(COUNT_1, PLAIN) = draws;
    uint32_t *state = &((struct tinoweala_chooser *)lent(CHOOSER, PLAIN))->state;
    for (*state = c->state; draws > 0; draws--) *state = plain_next(*state);
}

/* Remembers which numbers a function was to give, and which checks were to fail. */
static void note_answer(const struct call *c) {
    numbers[c->function] |= UINT32_C(1) << (wanted < 0 ? -wanted : c->function == LABEL_TEXT ? 0 : wanted);
    if (c->function == CHECK_CERTIFICATE && wanted == 0) checks |= UINT32_C(1) << *(uint32_t *)lent(VALUE_1, PLAIN);
}

static void compare_slice(enum slice s, enum place p) {
    struct difference d;
    char what[200];
    long bytes = (long)(current.given[s].len * entry_size[s]);
    if (!differs(s, p, &d)) return;
    snprintf(
        what, sizeof what, "%s differs at byte %ld, entry %ld%s: byte %u, not %u", slice_names[s], d.at, d.at / (long)entry_size[s],
        d.at < 0 || d.at >= bytes ? ", which is not lent" : "", d.is, d.want);
    fail(what);
}

static void compare_at(const struct call *c, enum place p) {
    char what[100];
    current_place = p;
    int64_t is = call_library(c, p);
    judge_draws(c, p);
    if (is != wanted) {
        snprintf(what, sizeof what, "result %ld, not %ld", (long)is, (long)wanted);
        fail(what);
    }
    for (int s = 0; s < SLICES && agreed; s++) {
        if (takes(c->function, s)) compare_slice(s, p);
    }
}

void compare_once(const struct call *c) {
    if (!agreed) return;
    current = *c;
    calls++;
    size_t bytes = lay_all(c);
    bool low = bytes < MUCH || calls % 2 == 0, high = bytes < MUCH || calls % 2 == 1;
    for (int s = 0; s < SLICES; s++) {
        if (low && takes(c->function, s)) copy_from_plain(s, LOW);
        if (high && takes(c->function, s)) copy_from_plain(s, HIGH);
    }
    wanted = call_plain(c);
    note_answer(c);
    if (low) compare_at(c, LOW);
    if (high) compare_at(c, HIGH);
}

void compare(const struct call *c) {
    compared_by(c);
}

void compare_by(void (*way)(const struct call *c)) {
    compared_by = way;
}

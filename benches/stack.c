/*
 * The stack that each public function uses, at full size: what lies below the caller is painted, the function called, and the paint that is left looked at.
 * What is written is the most over all calls, with the arguments and the return address.
 */
#include "../tests/compare/tables.h"
#include "../tests/compare/texts.h"
#include "tinoweala.h"
#include <stdio.h>

enum { PAINTED = 1 << 20, PAINT = 0x5a, NUMBERS = TINOWEALA_NUMBERS(MOST_N, MOST_M), SET = TINOWEALA_SET_WORDS(MOST_N) };

static uint32_t label[MOST_N], rank[MOST_N], in_edge[MOST_N], in_distance[MOST_N], out_edge[MOST_N], out_distance[MOST_N], room[MOST_N], list[MOST_N];
static uint32_t sources[MOST_M], targets[MOST_M], numbers[NUMBERS], values[3];
static const uint8_t no_kinds[MOST_M];
static uint64_t all[SET], set[SET], words[6 * SET];
static struct tinoweala_part waiting[MOST_N];
static struct tinoweala_chooser chooser;
static uint8_t out[1 << 20];
static size_t lengths[2];
static uint32_t method, order, kind;
static bool backward;
static int64_t result;

static size_t n(void) {
    return table.n;
}

static size_t set_words(void) {
    return tinoweala_set_words(table.n);
}

#define COLUMNS n(), table.sources, table.m, table.targets, table.m, no_kinds, table.m
#define TABLE COLUMNS, TINOWEALA_EVERY_KIND
#define MEMORY numbers, NUMBERS, words, 6 * SET

static void check_table(void) {
    result = tinoweala_check_table(COLUMNS);
}

static void search(void) {
    result = tinoweala_search(TABLE, all, set_words(), all, set_words(), backward, set, set_words(), MEMORY, &lengths[0], &lengths[1]);
}

static void trim(void) {
    result = tinoweala_trim(TABLE, all, set_words(), set, set_words(), MEMORY, &lengths[0]);
}

static void linear(void) {
    result = tinoweala_label(TABLE, label, n(), MEMORY);
}

static void decompose(void) {
    result = tinoweala_decompose(TABLE, method, order, &chooser, list, MOST_N, waiting, MOST_N, label, n(), MEMORY, &lengths[0]);
}

static void path(void) {
    result = tinoweala_path(TABLE, 0, n() - 1, room, MOST_N, MEMORY, &lengths[0]);
}

static void write_certificate(void) {
    result = tinoweala_write_certificate(
        TABLE, label, n(), rank, n(), in_edge, n(), in_distance, n(), out_edge, n(), out_distance, n(), MEMORY);
}

static void check_certificate(void) {
    result = tinoweala_check_certificate(
        TABLE, label, n(), rank, n(), in_edge, n(), in_distance, n(), out_edge, n(), out_distance, n(), &values[0], &lengths[0]);
}

static void summary(void) {
    result = tinoweala_summary(n(), label, n(), &values[0], &values[1], &values[2]);
}

static void read_text(void) {
    result = tinoweala_read_text(text.bytes, text.len, sources, MOST_M, targets, MOST_M, &lengths[0], &lengths[1]);
}

static void write_labels(void) {
    result = tinoweala_write_labels(label, n(), out, sizeof out, &lengths[0]);
}

static void label_text(void) {
    result = tinoweala_label_text(text.bytes, text.len, out, sizeof out);
}

static struct function {
    const char *name;
    void (*call)(void);
    size_t bytes, calls, refused;
} functions[] = {
    {"check_table", check_table, 0, 0, 0}, {"search", search, 0, 0, 0}, {"trim", trim, 0, 0, 0}, {"label", linear, 0, 0, 0},
    {"decompose", decompose, 0, 0, 0}, {"path", path, 0, 0, 0}, {"write_certificate", write_certificate, 0, 0, 0},
    {"check_certificate", check_certificate, 0, 0, 0}, {"summary", summary, 0, 0, 0}, {"read_text", read_text, 0, 0, 0},
    {"write_labels", write_labels, 0, 0, 0}, {"label_text", label_text, 0, 0, 0}};

/* The bytes below this function's own that a call has written. */
static __attribute__((noinline)) size_t used(void (*call)(void)) {
    volatile uint8_t *here, *low;
    __asm__ volatile("mov %%rsp, %0" : "=r"(here));
    for (low = here - PAINTED; low < here; low++) *low = PAINT;
    call();
    for (low = here - PAINTED; low < here && *low == PAINT;) low++;
    return (size_t)(here - low);
}

static void measure(void (*call)(void)) {
    struct function *f = functions;
    while (f->call != call) f++;
    size_t bytes = used(call);
    if (bytes > f->bytes) f->bytes = bytes;
    f->calls++;
    f->refused += result < 0 || (result > 0 && call != label_text);
}

/* Every function on the current table; each choice of the decomposer that is not slow on it. */
static void measure_all(void) {
    static void (*const rest[])(void) = {check_table, trim, linear, path, write_certificate, check_certificate, summary, write_labels};
    for (size_t v = 0; v < n(); v++) list[v] = (uint32_t)(n() - 1 - v);
    for (uint32_t x = 0; x < 12; x++) {
        method = x % 2, order = x / 2 % 2, kind = x / 4;
        chooser = (struct tinoweala_chooser){kind, 1};
        if (!table.nested || kind == 1) measure(decompose);
    }
    for (size_t i = 0; i < sizeof rest / sizeof *rest; i++) measure(rest[i]);
    backward = !backward;
    measure(search);
}

int main(void) {
    restart_draws();
    for (size_t i = 0; i < SET; i++) all[i] = ~UINT64_C(0);
    for (size_t i = 0; i < family_count; i++) {
        make_table(&families[i], MOST_N);
        if (families[i].nested) make_table(&families[i], 1 << 13);
        measure_all();
        spell_table(0);
        measure(read_text);
        make_table(&families[i], 512);
        spell_table(0);
        measure(label_text);
    }
    printf("| function | bytes of the stack | calls | of them refused |\n|---|---|---|---|\n");
    for (size_t i = 0; i < sizeof functions / sizeof *functions; i++) {
        const struct function *f = &functions[i];
        printf("| `%s` | %lu | %lu | %lu |\n", f->name, (unsigned long)f->bytes, (unsigned long)f->calls, (unsigned long)f->refused);
    }
    fflush(NULL);
    return 0;
}

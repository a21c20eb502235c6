#include "on_tables.h"
#include "compare.h"
#include "tables.h"
#include <string.h>

/* What the column may hold before the call: right labels, vertices, numbers that a search may have for colours, or one number everywhere. */
static void draw_column(uint32_t *column) {
    struct graph g = graph_of_table();
    size_t n = table.n, sort = below(6), one = below(2 * n + 3);
    if (sort == 0) ways_for(n)->labels(&g, column);
    for (size_t v = 0; sort > 0 && v < n; v++) {
        const size_t sorts[] = {0 /* right labels, above */, v, below(n), below(2 * n + 3), one, SIZE_MAX - below(3)};
        column[v] = (uint32_t)sorts[sort];
    }
}

void ask_label(void) {
    static uint32_t column[MOST_N];
    size_t times = table_is_large() ? 1 : rounds(5);
    for (size_t i = 0; i < times; i++) {
        struct call c = call_on_table(LABEL_TABLE);
        draw_column(column);
        if (below(2)) give(&c, LABEL, column, table.n);
        if (below(2)) lend_more(&c);
        compare(&c);
    }
}

/* A call may take so many bytes of the stack. */
enum { MOST_STACK = 1 << 12, PAINTED = 1 << 16, PAINT = 0x5a };

/* Paints the stack below this function, makes the call and gives the bytes down to the lowest that it wrote. */
static __attribute__((noinline)) size_t stack_used(const struct call *c) {
    volatile uint8_t *here, *low;
    __asm__ volatile("mov %%rsp, %0" : "=r"(here));
    for (low = here - PAINTED; low < here; low++) *low = PAINT;
    call_library(c, HIGH);
    for (low = here - PAINTED; low < here && *low == PAINT;) low++;
    return (size_t)(here - low);
}

/* Compares the call; then makes it again, on what it left, for its stack. */
static void compare_frugal(const struct call *c) {
    compare_once(c);
    if (!all_agreed()) return;
    for (int s = 0; s < SLICES; s++) {
        if (takes(c->function, s)) copy_from_plain(s, HIGH);
    }
    if (stack_used(c) > MOST_STACK) fail("the call takes more of the stack than it may");
}

void ask_label_frugal(void) {
    struct call c = call_on_table(LABEL_TABLE);
    compare_by(compare_frugal);
    compare(&c);
}

#define A_TABLE table.n, table.sources, table.m, table.targets, table.m, table.kinds, table.m, table.mask
#define MEMORY numbers, sizeof numbers / sizeof *numbers, words, sizeof words / sizeof *words

void ask_label_as_decompose(void) {
    static uint32_t label[MOST_N], other[MOST_N], list[MOST_N + 3], numbers[TINOWEALA_NUMBERS(MOST_N, MOST_M)];
    static uint64_t words[TINOWEALA_WORDS(MOST_N)];
    static struct tinoweala_part waiting[MOST_N];
    size_t bytes = table.n * sizeof *label, draws;
    memset(label, 255, bytes);
    tinoweala_label(A_TABLE, label, table.n, MEMORY);
    for (uint32_t i = 0; i < 12; i++) {
        struct tinoweala_chooser chooser = {i / 2 % 3, (uint32_t)drawn()};
        memset(other, 0, bytes);
        tinoweala_decompose(A_TABLE, i % 2, i / 6, &chooser, list, draw_list(list), waiting, MOST_N, other, table.n, MEMORY, &draws);
        agree("label column, and that of decompose", label, other, bytes);
    }
}

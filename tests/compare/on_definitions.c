#include "on_tables.h"
#include "compare.h"
#include "tables.h"
#include <string.h>

static void agree_on_sets(const struct graph *g) {
    bool mark[2][SMALL], permitted[SMALL], part[2][SMALL];
    for (size_t v = 0; v < g->n; v++) {
        mark[0][v] = mark[1][v] = below(4) == 0;
        permitted[v] = below(4) > 0;
        part[0][v] = part[1][v] = below(6) > 0;
    }
    by_rounds.reach(g, permitted, mark[0]);
    by_textbook.reach(g, permitted, mark[1]);
    agree("reach", mark[0], mark[1], g->n);
    by_rounds.trim(g, part[0]);
    by_textbook.trim(g, part[1]);
    agree("trim", part[0], part[1], g->n);
}

static void agree_on_columns(const struct graph *g) {
    uint32_t label[2][SMALL], of[2][SMALL];
    size_t bytes = g->n * sizeof **of, u = g->n > 0 ? below(g->n) : 0;
    by_rounds.labels(g, label[0]);
    by_textbook.labels(g, label[1]);
    agree("labels", label[0], label[1], bytes);
    by_rounds.distances(g, u, of[0]);
    by_textbook.distances(g, u, of[1]);
    agree("distances", of[0], of[1], bytes);
    by_rounds.from_labels(g, label[0], of[0]);
    by_textbook.from_labels(g, label[0], of[1]);
    agree("distances from labels", of[0], of[1], bytes);
    by_rounds.ranks(g, label[0], of[0]);
    by_textbook.ranks(g, label[0], of[1]);
    agree("ranks", of[0], of[1], bytes);
}

void ask_definitions(void) {
    struct graph g = graph_of_table(), back = turned(&g);
    if (table.n > SMALL) return;
    agree_on_sets(&g);
    agree_on_sets(&back);
    agree_on_columns(&g);
}

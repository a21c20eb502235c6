/* T and a dozen other tables through both methods, three pivot kinds and both orders: the labels, and how many of the runs gave them. */
#include "tinoweala.h"
#include <stdio.h>

enum { MOST = 130, EDGES = 400 };

static uint32_t sources[EDGES], targets[EDGES], label[MOST], first[MOST], numbers[TINOWEALA_NUMBERS(MOST, EDGES)];
static const uint8_t kinds[EDGES] = {0};
static uint64_t words[TINOWEALA_WORDS(MOST)];
static struct tinoweala_part waiting[MOST];
static const uint32_t list[] = {500, 3, 0, 7, 3, 64, 129, 5, 1};
static size_t edges;
static uint32_t seed;

static void edge(uint32_t from, uint32_t to) {
    sources[edges] = from;
    targets[edges] = to;
    edges++;
}

static uint32_t below(uint32_t k) {
    seed = 1664525 * seed + 1013904223;
    return (seed >> 8) % k;
}

/* An edge from each vertex of from .. to - 1 to the next. */
static void chain(uint32_t from, uint32_t to) {
    for (uint32_t v = from; v + 1 < to; v++) edge(v, v + 1);
}

static void ring(uint32_t from, uint32_t to) {
    chain(from, to);
    edge(to - 1, from);
}

static void drawn(uint32_t n, size_t m, uint32_t from) {
    seed = from;
    while (edges < m) {
        uint32_t u = below(n);
        edge(u, below(n));
    }
}

static bool run(size_t n, uint32_t method, uint32_t kind, uint32_t order) {
    struct tinoweala_chooser chooser = {kind, 7};
    size_t draws = 0;
    uint32_t no = tinoweala_decompose(
        n, sources, edges, targets, edges, kinds, edges, TINOWEALA_EVERY_KIND, method, order, &chooser, list,
        sizeof list / sizeof *list, waiting, MOST, label, n, numbers, sizeof numbers / sizeof *numbers, words,
        sizeof words / sizeof *words, &draws);
    if (no != TINOWEALA_DONE) return false;
    if (kind != TINOWEALA_PIVOT_DRAWN && (draws != 0 || chooser.state != 7)) return false;
    return draws <= 2 * n;
}

/* The labels of the first run, and the number of runs that gave the same; the table is then emptied. */
static void show(const char *name, size_t n) {
    int same = 0;
    for (uint32_t method = 0; method < 2; method++)
        for (uint32_t kind = 0; kind < 3; kind++)
            for (uint32_t order = 0; order < 2; order++) {
                bool good = run(n, method, kind, order);
                for (size_t v = 0; v < n; v++) {
                    if (method + kind + order == 0) first[v] = label[v];
                    good = good && label[v] == first[v];
                }
                same += good;
            }
    printf("%s, %d runs:", name, same);
    for (size_t v = 0; v < n; v++) printf(" %u", (unsigned)first[v]);
    printf("\n");
    edges = 0;
}

int main(void) {
    ring(0, 3), edge(2, 3), edge(3, 4), edge(4, 3), edge(5, 5);
    show("T", 6);
    show("no vertex", 0);
    show("one vertex", 1);
    edge(0, 0);
    show("one loop", 1);
    chain(0, 9);
    show("chain", 9);
    ring(0, 9);
    show("ring", 9);
    ring(0, 4), ring(4, 9), edge(6, 2);
    show("two rings", 9);
    for (uint32_t v = 0; v < 12; v += 2) ring(v, v + 2), edge(v + 1, (v + 2) % 14);
    edge(12, 13), edge(13, 12);
    show("chain of rings of two", 14);
    chain(0, 5), ring(5, 8), chain(8, 12), edge(4, 5), edge(7, 8), edge(11, 11);
    show("chain, ring, chain and loop", 12);
    ring(0, 65), edge(64, 65), ring(65, 130);
    show("two rings of 65", 130);
    for (uint32_t v = 129; v > 0; v--) edge(v, v - 1);
    edge(3, 90);
    show("falling chain with one edge back", 130);
    drawn(40, 40, 1);
    show("drawn, 40 vertices and 40 edges", 40);
    drawn(40, 70, 2);
    show("drawn, 40 vertices and 70 edges", 40);
    drawn(100, 150, 3);
    show("drawn, 100 vertices and 150 edges", 100);
    return 0;
}

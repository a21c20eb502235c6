#include "definitions.h"

struct graph turned(const struct graph *g) {
    return (struct graph){g->n, g->m, g->to, g->from, g->kinds, g->mask};
}

const struct ways *ways_for(size_t n) {
    return n <= SMALL ? &by_rounds : &by_textbook;
}

static void reach(const struct graph *g, const bool *permitted, bool *mark) {
    for (size_t v = 0; v < g->n; v++) mark[v] = mark[v] && permitted[v];
    for (bool grew = true; grew;) {
        grew = false;
        for (size_t e = 0; e < g->m; e++) {
            uint32_t u = g->from[e], v = g->to[e];
            if (counts(g, e) && mark[u] && permitted[v] && !mark[v]) mark[v] = grew = true;
        }
    }
}

/* A vertex that no edge of the part enters, or none leaves, is removed; repeated until none is left. */
static void trim(const struct graph *g, bool *part) {
    for (bool went = true; went;) {
        bool entered[SMALL] = {false}, left[SMALL] = {false};
        for (size_t e = 0; e < g->m; e++) {
            uint32_t u = g->from[e], v = g->to[e];
            if (counts(g, e) && part[u] && part[v]) left[u] = entered[v] = true;
        }
        went = false;
        for (size_t v = 0; v < g->n; v++) {
            if (part[v] && !(entered[v] && left[v])) {
                part[v] = false;
                went = true;
            }
        }
    }
}

/* Marks what u reaches in the whole of g. */
static void reach_from(const struct graph *g, size_t u, bool *mark) {
    bool all[SMALL];
    for (size_t v = 0; v < g->n; v++) {
        all[v] = true;
        mark[v] = v == u;
    }
    reach(g, all, mark);
}

static void labels(const struct graph *g, uint32_t *label) {
    struct graph back = turned(g);
    for (size_t v = 0; v < g->n; v++) {
        bool reached[SMALL], reaching[SMALL];
        reach_from(g, v, reached);
        reach_from(&back, v, reaching);
        uint32_t u = 0;
        while (!(reached[u] && reaching[u])) u++;
        label[v] = u;
    }
}

static void distances(const struct graph *g, size_t u, uint32_t *distance) {
    for (size_t v = 0; v < g->n; v++) distance[v] = v == u ? 0 : FAR;
    for (uint32_t d = 0; d < g->n; d++) {
        for (size_t e = 0; e < g->m; e++) {
            if (counts(g, e) && distance[g->from[e]] == d && distance[g->to[e]] == FAR) distance[g->to[e]] = d + 1;
        }
    }
}

static void from_labels(const struct graph *g, const uint32_t *label, uint32_t *distance) {
    for (size_t v = 0; v < g->n; v++) {
        uint32_t all[SMALL];
        distances(g, label[v], all);
        distance[v] = all[v];
    }
}

static void ranks(const struct graph *g, const uint32_t *label, uint32_t *rank) {
    for (size_t v = 0; v < g->n; v++) rank[v] = 0;
    for (bool grew = true; grew;) {
        grew = false;
        for (size_t e = 0; e < g->m; e++) {
            uint32_t u = g->from[e], v = g->to[e];
            uint32_t at_least = rank[u] + (label[u] != label[v]);
            if (counts(g, e) && rank[v] < at_least) {
                rank[v] = at_least;
                grew = true;
            }
        }
    }
}

const struct ways by_rounds = {reach, trim, labels, distances, from_labels, ranks};

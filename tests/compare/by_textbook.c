#include "definitions.h"

/* The counted edges that leave a vertex: first[v], then next[e] after e, up to NONE. */
#define NONE UINT32_C(4294967295)
static uint32_t first[MOST_N], next[MOST_M];

/* Vertices still to be looked at: a stack or a queue, each vertex on it once at most. */
static uint32_t waiting[MOST_N];

static void list_edges(const struct graph *g) {
    for (size_t v = 0; v < g->n; v++) first[v] = NONE;
    for (size_t e = 0; e < g->m; e++) {
        if (!counts(g, e)) continue;
        next[e] = first[g->from[e]];
        first[g->from[e]] = (uint32_t)e;
    }
}

static void reach(const struct graph *g, const bool *permitted, bool *mark) {
    size_t top = 0;
    list_edges(g);
    for (size_t v = 0; v < g->n; v++) {
        mark[v] = mark[v] && permitted[v];
        if (mark[v]) waiting[top++] = (uint32_t)v;
    }
    while (top > 0) {
        for (uint32_t e = first[waiting[--top]]; e != NONE; e = next[e]) {
            uint32_t v = g->to[e];
            if (!permitted[v] || mark[v]) continue;
            mark[v] = true;
            waiting[top++] = v;
        }
    }
}

/* Peels off vertices that no edge of the part enters, again and again. */
static void peel(const struct graph *g, bool *part) {
    static uint32_t entering[MOST_N];
    size_t top = 0;
    for (size_t v = 0; v < g->n; v++) entering[v] = 0;
    for (size_t e = 0; e < g->m; e++) entering[g->to[e]] += counts(g, e) && part[g->from[e]] && part[g->to[e]];
    list_edges(g);
    for (size_t v = 0; v < g->n; v++) {
        if (part[v] && entering[v] == 0) waiting[top++] = (uint32_t)v;
    }
    while (top > 0) {
        uint32_t u = waiting[--top];
        part[u] = false;
        for (uint32_t e = first[u]; e != NONE; e = next[e]) {
            if (part[g->to[e]] && --entering[g->to[e]] == 0) waiting[top++] = g->to[e];
        }
    }
}

/* What the second peeling leaves is still entered: who enters a vertex that stays is left by an edge to it, and stays too. */
static void trim(const struct graph *g, bool *part) {
    struct graph back = turned(g);
    peel(g, part);
    peel(&back, part);
}

/* All vertices, each after all that it reaches and that does not reach it: the order in which a depth-first search leaves them. */
static void leaving_order(const struct graph *g, uint32_t *order) {
    static bool seen[MOST_N];
    size_t left = 0, top = 0;
    list_edges(g);
    for (size_t v = 0; v < g->n; v++) seen[v] = false;
    for (size_t root = 0; root < g->n; root++) {
        if (seen[root]) continue;
        seen[root] = true;
        waiting[top++] = (uint32_t)root;
        while (top > 0) {
            uint32_t u = waiting[top - 1], e = first[u];
            if (e == NONE) {
                order[left++] = u;
                top--;
                continue;
            }
            first[u] = next[e];
            if (seen[g->to[e]]) continue;
            seen[g->to[e]] = true;
            waiting[top++] = g->to[e];
        }
    }
}

/* Kosaraju's way: the vertices component by component, an edge between two components leading to the later one. */
static void components(const struct graph *g, uint32_t *order, uint32_t *label) {
    static uint32_t leaving[MOST_N];
    struct graph back = turned(g);
    size_t placed = 0;
    leaving_order(g, leaving);
    list_edges(&back);
    for (size_t v = 0; v < g->n; v++) label[v] = NONE;
    for (size_t i = g->n; i-- > 0;) {
        size_t begin = placed;
        uint32_t root = leaving[i], lowest = root;
        if (label[root] != NONE) continue;
        label[root] = root;
        order[placed++] = root;
        for (size_t k = begin; k < placed; k++) {
            if (order[k] < lowest) lowest = order[k];
            for (uint32_t e = first[order[k]]; e != NONE; e = next[e]) {
                if (label[back.to[e]] != NONE) continue;
                label[back.to[e]] = root;
                order[placed++] = back.to[e];
            }
        }
        for (size_t k = begin; k < placed; k++) label[order[k]] = lowest;
    }
}

static void labels(const struct graph *g, uint32_t *label) {
    static uint32_t order[MOST_N];
    components(g, order, label);
}

/* Breadth first from the vertices at distance 0, along edges between vertices of one label, or along all where label is null. */
static void breadth_first(const struct graph *g, const uint32_t *label, uint32_t *distance) {
    size_t end = 0;
    list_edges(g);
    for (size_t v = 0; v < g->n; v++) {
        if (distance[v] == 0) waiting[end++] = (uint32_t)v;
    }
    for (size_t i = 0; i < end; i++) {
        uint32_t u = waiting[i];
        for (uint32_t e = first[u]; e != NONE; e = next[e]) {
            uint32_t v = g->to[e];
            if (distance[v] != FAR || (label && label[u] != label[v])) continue;
            distance[v] = distance[u] + 1;
            waiting[end++] = v;
        }
    }
}

static void distances(const struct graph *g, size_t u, uint32_t *distance) {
    for (size_t v = 0; v < g->n; v++) distance[v] = v == u ? 0 : FAR;
    breadth_first(g, NULL, distance);
}

static void from_labels(const struct graph *g, const uint32_t *label, uint32_t *distance) {
    for (size_t v = 0; v < g->n; v++) distance[v] = label[v] == v ? 0 : FAR;
    breadth_first(g, label, distance);
}

/* Component by component, in an order that the edges follow: a rank is final when its component is come to. */
static void ranks(const struct graph *g, const uint32_t *label, uint32_t *rank) {
    static uint32_t order[MOST_N], same[MOST_N], of_label[MOST_N];
    components(g, order, same);
    list_edges(g);
    for (size_t v = 0; v < g->n; v++) of_label[v] = 0;
    for (size_t i = 0; i < g->n; i++) {
        uint32_t from = label[order[i]];
        for (uint32_t e = first[order[i]]; e != NONE; e = next[e]) {
            uint32_t to = label[g->to[e]];
            if (from != to && of_label[to] <= of_label[from]) of_label[to] = of_label[from] + 1;
        }
    }
    for (size_t v = 0; v < g->n; v++) rank[v] = of_label[label[v]];
}

const struct ways by_textbook = {reach, trim, labels, distances, from_labels, ranks};

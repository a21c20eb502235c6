/*
 * The definitions of document 01 and request 7 in two ways: word for word by rounds over the edges, for small tables, and by the ways of the textbooks, for
 * large ones.
 * Both are for tables that pass the table check; a test compares the two.
 */
#ifndef DEFINITIONS_H
#define DEFINITIONS_H

#include <stdbool.h>
#include <stddef.h>
#include <stdint.h>

enum { MOST_N = 65536, MOST_M = 262144, SMALL = 40 };

#define FAR UINT32_C(4294967295)

/* Edge e leads from from[e] to to[e]. An edge that does not count is no edge, but it keeps its number. */
struct graph {
    size_t n, m;
    const uint32_t *from, *to;
    const uint8_t *kinds;
    uint8_t mask;
};

/* Whether the mask has a 1 at the kind of edge e. */
static inline bool counts(const struct graph *g, size_t e) {
    return g->mask >> g->kinds[e] & 1;
}

struct ways {
    /* Of the marked vertices only those permitted stay marked, and all that they reach by chains that stay permitted becomes marked. */
    void (*reach)(const struct graph *g, const bool *permitted, bool *mark);
    /* What rounds of trimming leave of the part. */
    void (*trim)(const struct graph *g, bool *part);
    /* The smallest vertex of each vertex's component. */
    void (*labels)(const struct graph *g, uint32_t *label);
    /* The number of edges of a shortest chain from u to each vertex, FAR if there is none. */
    void (*distances)(const struct graph *g, size_t u, uint32_t *distance);
    /* The distance of each vertex from its label, for right labels. */
    void (*from_labels)(const struct graph *g, const uint32_t *label, uint32_t *distance);
    /* The greatest number of label-changing edges on any path that ends at each vertex, for right labels. */
    void (*ranks)(const struct graph *g, const uint32_t *label, uint32_t *rank);
};

extern const struct ways by_rounds, by_textbook;

/* Those for a table of n vertices. */
const struct ways *ways_for(size_t n);

/* The graph with every arrow turned. */
struct graph turned(const struct graph *g);

#endif

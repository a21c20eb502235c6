/* Families of tables. */
#include "tables.h"

static void no_edge(size_t n) {
    (void)n;
}

static void chain(size_t n) {
    for (size_t v = 0; v + 1 < n; v++) edge(v, v + 1);
}

static void falling_chain(size_t n) {
    for (size_t v = n; v-- > 1;) edge(v, v - 1);
}

static void ring(size_t n) {
    for (size_t v = 0; v < n; v++) edge(v, (v + 1) % n);
}

/* Every edge of a ring three times, in three runs. */
static void repeated_ring(size_t n) {
    for (int round = 0; round < 3; round++) ring(n);
}

static void separate_rings(size_t n) {
    for (size_t v = 0; v < n; v++) edge(v, v % 3 == 2 || v + 1 == n ? v / 3 * 3 : v + 1);
}

static void chain_of_rings(size_t n) {
    for (size_t v = 0; v + 1 < n; v++) {
        edge(v, v + 1);
        if (v % 2 == 0) edge(v + 1, v);
    }
}

static void falling_chain_of_rings(size_t n) {
    for (size_t v = n; v-- > 1;) {
        edge(v, v - 1);
        if (v % 3 != 0) edge(v - v % 3, v);
    }
}

static void chain_of_loops(size_t n) {
    chain(n);
    for (size_t v = 0; v < n; v += 2) edge(v, v);
}

static void loops(size_t n) {
    for (size_t v = 0; v < n; v++) edge(v, v);
}

/* A ring that a chain leads to and a chain leaves, with a loop at the very end. */
static void ring_between_chains(size_t n) {
    chain(n);
    edge(n - 1 - n / 3, n / 3);
    edge(n - 1, n - 1);
}

static void two_rings(size_t n) {
    size_t half = n / 2;
    for (size_t v = 0; v < half; v++) edge(v, (v + 1) % half);
    for (size_t v = half; v < n; v++) edge(v, v + 1 < n ? v + 1 : half);
    if (half > 0) edge(n - 1, half - 1);
}

/* Layers of 8, each vertex with edges to three of the next layer. */
static void layers(size_t n) {
    for (size_t v = 0; v + 8 < n; v++) {
        for (size_t k = 0; k < 3; k++) {
            size_t to = (v / 8 + 1) * 8 + (v + k * k) % 8;
            if (to < n) edge(v, to);
        }
    }
}

/* The same with an edge from the last layer to the first. */
static void layers_in_a_ring(size_t n) {
    layers(n);
    edge(n - 1, 0);
}

/* Every edge, loops too, between as many vertices as 4 n edges allow. */
static void complete(size_t n) {
    size_t k = 1;
    while (k < n && (k + 1) * (k + 1) <= 4 * n) k++;
    for (size_t u = 0; u < k; u++) {
        for (size_t v = 0; v < k; v++) edge(n - 1 - u, n - 1 - v);
    }
}

static void star(size_t n) {
    for (size_t v = 0; v < n; v++) {
        if (v % 3 != 1) edge(n / 2, v);
        if (v % 3 != 2) edge(v, n / 2);
    }
}

/* A binary tree whose leaves lead to the root's second child. */
static void tree(size_t n) {
    for (size_t v = 1; v < n; v++) edge((v - 1) / 2, v);
    for (size_t v = n / 2; v < n; v++) {
        if (n > 2) edge(v, 2);
    }
}

/* A ring, a chain that pays no heed to the numbers: each vertex leads to another by a step that has no divisor in common with n. */
static void stepping(size_t n, size_t edges) {
    size_t step = n / 2 + 1;
    while (n % 2 == 0 && step % 2 == 0) step++;
    for (size_t v = 0, k = 0; k < edges; k++, v = (v + step) % n) edge(v, (v + step) % n);
}

static void stepping_ring(size_t n) {
    stepping(n, n);
}

static void stepping_chain(size_t n) {
    stepping(n, n - 1);
}

static void anywhere(size_t n, size_t m) {
    while (table.m < m) {
        size_t u = below(n);
        edge(u, below(n));
    }
}

static void as_many_drawn(size_t n) {
    anywhere(n, n);
}

static void four_times_as_many_drawn(size_t n) {
    anywhere(n, 4 * n);
}

/* Edges between vertices at most 5 apart. */
static void near(size_t n) {
    while (table.m < 2 * n) {
        size_t u = below(n), v = u + below(11);
        if (v >= 5 && v - 5 < n) edge(u, v - 5);
    }
}

static void falling_ring(size_t n) {
    falling_chain(n);
    edge(0, n - 1);
}

/* A chain and back: from each vertex first forward, so that the whole chain is one path before anything closes, or first back, so that each step closes. */
static void there_and_back(size_t n) {
    chain(n);
    falling_chain(n);
}

static void back_and_there(size_t n) {
    falling_chain(n);
    chain(n);
}

static void back_to_the_first(size_t n) {
    chain(n);
    for (size_t v = 0; v < n; v++) edge(v, 0);
}

/* Each ring is closed around the one before. */
static void rings_around_rings(size_t n) {
    chain(n);
    for (size_t v = 0; v < n / 2; v++) edge(n - 1 - v, v);
}

/* A chain of rings, and the lowest vertex leads to each of them. */
static void cover_sheet(size_t n) {
    for (size_t v = 1; v < n; v++) {
        if (v % 2 == 1) edge(0, v);
        if (v + 1 < n) edge(v, v + 1);
        if (v + 1 < n && v % 2 == 1) edge(v + 1, v);
    }
}

/* The same with the highest vertex, down the numbers. */
static void falling_cover_sheet(size_t n) {
    for (size_t v = n - 1; v-- > 0;) {
        if (v % 2 == 1) edge(n - 1, v);
        if (v > 0) edge(v, v - 1);
        if (v % 2 == 1) edge(v - 1, v);
    }
}

static void first_ring_to_the_last(size_t n) {
    chain_of_rings(n);
    edge(0, n - 1);
}

/* An edge of kind 1, which does not count. */
static void mention(size_t from, size_t to) {
    edge(from, to);
    table.kinds[table.m - 1] = 1;
    table.mask = 253;
}

static void ring_by_a_mention(size_t n) {
    chain(n);
    mention(n - 1, 0);
}

static void rings_with_mentions(size_t n) {
    falling_chain_of_rings(n);
    for (size_t v = 0; v + 3 < n; v += 3) mention(v, v + 3);
}

const struct family families[] = {
    {"no edge", no_edge, false},
    {"chain", chain, false},
    {"falling chain", falling_chain, false},
    {"ring", ring, false},
    {"repeated ring", repeated_ring, false},
    {"separate rings", separate_rings, false},
    {"chain of rings", chain_of_rings, true},
    {"falling chain of rings", falling_chain_of_rings, true},
    {"chain of loops", chain_of_loops, true},
    {"loops", loops, false},
    {"ring between chains", ring_between_chains, false},
    {"two rings", two_rings, false},
    {"layers", layers, false},
    {"layers in a ring", layers_in_a_ring, false},
    {"complete", complete, false},
    {"star", star, false},
    {"tree", tree, false},
    {"stepping ring", stepping_ring, false},
    {"stepping chain", stepping_chain, false},
    {"as many drawn", as_many_drawn, false},
    {"four times as many drawn", four_times_as_many_drawn, false},
    {"near", near, true},
};
const size_t family_count = sizeof families / sizeof *families;

const struct family deep_families[] = {
    {"chain", chain, false},
    {"falling chain", falling_chain, false},
    {"ring", ring, false},
    {"falling ring", falling_ring, false},
    {"there and back", there_and_back, false},
    {"back and there", back_and_there, false},
    {"back to the first", back_to_the_first, false},
    {"rings around rings", rings_around_rings, false},
    {"cover sheet", cover_sheet, true},
    {"falling cover sheet", falling_cover_sheet, true},
    {"first ring to the last", first_ring_to_the_last, true},
    {"ring by a mention", ring_by_a_mention, false},
    {"rings with mentions", rings_with_mentions, true},
};
const size_t deep_family_count = sizeof deep_families / sizeof *deep_families;

void make_table(const struct family *f, size_t n) {
    begin_table(f->name, n);
    table.nested = f->nested;
    f->make(n);
}

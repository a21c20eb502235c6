/* The table that the tests ask about, and how tables are made. */
#ifndef TABLES_H
#define TABLES_H

#include "definitions.h"

/* It has room for one edge more than is allowed. In a nested one pivot kind 0 needs a generation of parts for each component: slow in large ones. */
struct table {
    const char *name;
    bool nested;
    size_t n, m;
    uint32_t sources[MOST_M + 1], targets[MOST_M + 1];
    uint8_t kinds[MOST_M + 1], mask;
};

extern struct table table;

/* Numbers drawn from a fixed seed; every test begins with it. */
void restart_draws(void);
uint64_t drawn(void);
size_t below(size_t k);

/* A table of n vertices without edges and with mask 255, and one edge more, of kind 0. */
void begin_table(const char *name, size_t n);
void edge(size_t from, size_t to);

/* Draws a kind for each edge, and the mask: often 255, now and then 0, one bit or all bits but one. */
void draw_kinds(void);

struct graph graph_of_table(void);

/* Whether the current table is so small that everything can be asked about it, or so large that little can. */
bool table_is_tiny(void);
bool table_is_large(void);

/* How often to ask: most where tables are neither so many as the small ones nor large. */
size_t rounds(size_t most);

/* The collection T of document 01. */
void make_T(void);

/* The tables of a family have at most 4 n edges. */
struct family {
    const char *name;
    void (*make)(size_t n);
    bool nested;
};
extern const struct family families[];
extern const size_t family_count;
void make_table(const struct family *f, size_t n);

/* Those on which a search goes deep, or the decomposer is slow. */
extern const struct family deep_families[];
extern const size_t deep_family_count;

/*
 * Asks about every table of up to 3 vertices and 4 edges, with all edges counted and with a drawn mask, and where it has at most 2 edges with every choice of
 * those that count; then about every set of edges on 3 vertices, with a drawn mask, and every set of edges without loops on 4, all counted.
 */
void all_small_tables(void (*ask)(void));

/* Asks about every family with few vertices, and with numbers of vertices around those where a word of a set begins; kinds and mask are drawn. */
void structured_tables(void (*ask)(void));

/* Asks about drawn tables, of up to 12, 40 and 200 vertices, with drawn kinds and masks; about many or some. */
void drawn_tables(void (*ask)(void));
void some_drawn_tables(void (*ask)(void));

/* Asks about every family at 65,536 vertices, some of them filled up to 262,144 edges, with drawn kinds and mostly with all of them counted. */
void largest_tables(void (*ask)(void));

/* Asks about every deep family at 65,536 vertices. */
void deep_tables(void (*ask)(void));

#endif

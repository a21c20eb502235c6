#include <string.h>

#include "course.h"
#include "plain.h"

/* A vertex has its label, or is in a part; while F is cut, what remains of it has a number of its own. */
enum { LABELLED, REST, WHOLE };

static const struct graph *graph;
static uint32_t part[MOST_COURSE], parts, state;
static size_t draws;
/* The parts that wait stand from oldest to newest: in a whole course at most n slices, and two parts for each vertex that gets its label. */
static uint32_t waiting[4 * MOST_COURSE + 1];
static size_t oldest, newest;

/* Marks the vertices of the part q; gives their number. */
static size_t mark_part(uint32_t q, bool *mark) {
    size_t k = 0;
    for (size_t v = 0; v < graph->n; v++) {
        mark[v] = part[v] == q;
        k += mark[v];
    }
    return k;
}

static void put_marked(const bool *mark, uint32_t q) {
    for (size_t v = 0; v < graph->n; v++) {
        if (mark[v]) part[v] = q;
    }
}

/* What the marked vertices reach within the part q, backward what reaches them. */
static void reach_in(uint32_t q, bool backward, bool *mark) {
    static bool permitted[MOST_COURSE];
    struct graph back = turned(graph);
    mark_part(q, permitted);
    by_textbook.reach(backward ? &back : graph, permitted, mark);
}

/* The vertex at place next mod k among the part's k vertices. */
static size_t draw_pivot(uint32_t q, size_t k) {
    state = plain_next(state);
    draws++;
    size_t place = state % k, v = 0;
    for (;; v++) {
        if (part[v] == q && place-- == 0) return v;
    }
}

static void trim_part(uint32_t q) {
    static bool left[MOST_COURSE];
    mark_part(q, left);
    by_textbook.trim(graph, left);
    for (size_t v = 0; v < graph->n; v++) {
        if (part[v] == q && !left[v]) part[v] = LABELLED;
    }
}

/* Method 0: what F and B share has its label; the rest of F and the rest of B are new parts. */
static void split(size_t p, uint32_t q) {
    static bool ahead[MOST_COURSE], behind[MOST_COURSE];
    memset(ahead, 0, sizeof ahead);
    memset(behind, 0, sizeof behind);
    ahead[p] = behind[p] = true;
    reach_in(q, false, ahead);
    reach_in(q, true, behind);
    for (size_t v = 0; v < graph->n; v++) {
        if (ahead[v] || behind[v]) part[v] = ahead[v] && behind[v] ? LABELLED : parts + behind[v];
    }
    parts += 2;
}

static bool entered(size_t v) {
    for (size_t e = 0; e < graph->m; e++) {
        if (counts(graph, e) && graph->to[e] == v && part[graph->from[e]] == REST) return true;
    }
    return false;
}

/* The successors in what remains become seeds. */
static void seed_after(const bool *from, bool *seed) {
    for (size_t e = 0; e < graph->m; e++) {
        if (counts(graph, e) && from[graph->from[e]] && part[graph->to[e]] == REST) seed[graph->to[e]] = true;
    }
}

/* A seed that nothing of what remains enters goes; false if none can. */
static bool one_goes(bool *seed) {
    bool gone[MOST_COURSE] = {false};
    for (size_t v = 0; v < graph->n; v++) {
        if (!seed[v] || part[v] != REST || entered(v)) continue;
        part[v] = LABELLED;
        gone[v] = true;
        seed_after(gone, seed);
        return true;
    }
    return false;
}

/* Method 1: F is cut into slices, new parts, beginning with p as the only seed. */
static void cut(size_t p, uint32_t q) {
    static bool seed[MOST_COURSE], slice[MOST_COURSE], rest[MOST_COURSE];
    memset(seed, 0, sizeof seed);
    seed[p] = true;
    memcpy(rest, seed, sizeof rest);
    reach_in(q, false, rest);
    put_marked(rest, REST);
    while (mark_part(REST, rest) > 0) {
        while (one_goes(seed)) continue;
        memcpy(slice, seed, sizeof slice);
        reach_in(REST, true, slice);
        put_marked(slice, parts++);
        memset(seed, 0, sizeof seed);
        seed_after(slice, seed);
    }
}

/* The parts from first on wait, in the order of their lowest vertices. */
static void put_new_parts(uint32_t first) {
    for (size_t v = 0; v < graph->n; v++) {
        bool new = part[v] >= first;
        for (size_t i = oldest; i < newest; i++) new = new && waiting[i] != part[v];
        if (new) waiting[newest++] = part[v];
    }
}

static void divide(uint32_t q, bool slicing) {
    static bool mark[MOST_COURSE];
    uint32_t first = parts;
    if (!slicing) trim_part(q);
    for (size_t k = mark_part(q, mark); k > 0; k = mark_part(q, mark)) {
        size_t p = draw_pivot(q, k);
        if (slicing) {
            cut(p, q);
        } else {
            split(p, q);
        }
    }
    put_new_parts(first);
}

size_t course_draws(const struct graph *g, uint32_t method, uint32_t order, uint32_t first_state) {
    graph = g;
    state = first_state;
    draws = 0;
    parts = WHOLE + 1;
    for (size_t v = 0; v < g->n; v++) part[v] = WHOLE;
    oldest = newest = 0;
    put_new_parts(WHOLE);
    while (oldest < newest) {
        uint32_t q = order == 0 ? waiting[--newest] : waiting[oldest++];
        divide(q, method == 1 && q == WHOLE);
    }
    return draws;
}

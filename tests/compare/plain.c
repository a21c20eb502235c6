/* The functions on edge tables and columns. */
#include "definitions.h"
#include "plain.h"
#include <string.h>

static size_t set_words(size_t n) {
    return (n + 63) / 64;
}

static bool memory_short(size_t n, size_t m, size_t numbers_len, size_t words_len) {
    return numbers_len < 12 * n + 2 * m + 16 || words_len < 6 * set_words(n);
}

static void zero_memory(size_t n, size_t m, uint32_t *numbers, uint64_t *words) {
    memset(numbers, 0, (12 * n + 2 * m + 16) * sizeof *numbers);
    memset(words, 0, 6 * set_words(n) * sizeof *words);
}

static void read_set(size_t n, const uint64_t *words, bool *set) {
    for (size_t v = 0; v < n; v++) set[v] = words[v / 64] >> v % 64 & 1;
}

/* Writes the set and gives its size. */
static size_t write_set(size_t n, const bool *set, uint64_t *words) {
    size_t size = 0;
    for (size_t i = 0; i < set_words(n); i++) words[i] = 0;
    for (size_t v = 0; v < n; v++) {
        if (!set[v]) continue;
        words[v / 64] |= UINT64_C(1) << v % 64;
        size++;
    }
    return size;
}

uint32_t plain_check_table(
    size_t n, const uint32_t *sources, size_t sources_len, const uint32_t *targets, size_t targets_len, const uint8_t *kinds, size_t kinds_len) {
    if (n > 65536) return 1;
    if (sources_len != targets_len) return 2;
    if (kinds_len != sources_len) return 21;
    if (sources_len > 262144) return 3;
    for (size_t e = 0; e < sources_len; e++) {
        if (sources[e] >= n || targets[e] >= n) return 4;
    }
    for (size_t e = 0; e < kinds_len; e++) {
        if (kinds[e] > 7) return 22;
    }
    return 0;
}

uint32_t plain_search(
    size_t n, const uint32_t *sources, size_t m, const uint32_t *targets, size_t targets_len, const uint8_t *kinds, size_t kinds_len, uint8_t mask,
    const uint64_t *starts, size_t starts_len, const uint64_t *permitted, size_t permitted_len, bool backward, uint64_t *reached, size_t reached_len,
    uint32_t *numbers, size_t numbers_len, uint64_t *words, size_t words_len, size_t *vertices, size_t *edges) {
    static bool mark[MOST_N], allowed[MOST_N];
    uint32_t no = plain_check_table(n, sources, m, targets, targets_len, kinds, kinds_len);
    if (no) return no;
    if (starts_len != set_words(n) || permitted_len != set_words(n) || reached_len != set_words(n)) return 5;
    if (memory_short(n, m, numbers_len, words_len)) return 6;
    struct graph g = {n, m, backward ? targets : sources, backward ? sources : targets, kinds, mask};
    read_set(n, starts, mark);
    read_set(n, permitted, allowed);
    ways_for(n)->reach(&g, allowed, mark);
    *vertices = write_set(n, mark, reached);
    *edges = 0;
    for (size_t e = 0; e < m; e++) *edges += counts(&g, e) && mark[g.from[e]];
    zero_memory(n, m, numbers, words);
    return 0;
}

uint32_t plain_trim(
    size_t n, const uint32_t *sources, size_t m, const uint32_t *targets, size_t targets_len, const uint8_t *kinds, size_t kinds_len, uint8_t mask,
    const uint64_t *part, size_t part_len, uint64_t *left, size_t left_len, uint32_t *numbers, size_t numbers_len, uint64_t *words, size_t words_len,
    size_t *vertices) {
    static bool set[MOST_N];
    uint32_t no = plain_check_table(n, sources, m, targets, targets_len, kinds, kinds_len);
    if (no) return no;
    if (part_len != set_words(n) || left_len != set_words(n)) return 5;
    if (memory_short(n, m, numbers_len, words_len)) return 6;
    struct graph g = {n, m, sources, targets, kinds, mask};
    read_set(n, part, set);
    ways_for(n)->trim(&g, set);
    *vertices = write_set(n, set, left);
    zero_memory(n, m, numbers, words);
    return 0;
}

uint32_t plain_next(uint32_t state) {
    return (uint32_t)((UINT64_C(1664525) * state + 1013904223) % (UINT64_C(1) << 32));
}

uint32_t plain_decompose(
    size_t n, const uint32_t *sources, size_t m, const uint32_t *targets, size_t targets_len, const uint8_t *kinds, size_t kinds_len, uint8_t mask,
    uint32_t method, uint32_t order, struct tinoweala_chooser *chooser, const uint32_t *list, size_t list_len, struct tinoweala_part *waiting,
    size_t waiting_len, uint32_t *label, size_t label_len, uint32_t *numbers, size_t numbers_len, uint64_t *words, size_t words_len, size_t *draws) {
    (void)list, (void)list_len;
    uint32_t no = plain_check_table(n, sources, m, targets, targets_len, kinds, kinds_len);
    if (no) return no;
    if (label_len != n) return 5;
    if (memory_short(n, m, numbers_len, words_len)) return 6;
    if (waiting_len < n) return 7;
    if (method > 1 || chooser->kind > 2 || order > 1) return 8;
    struct graph g = {n, m, sources, targets, kinds, mask};
    ways_for(n)->labels(&g, label);
    for (size_t i = 0; i < n; i++) waiting[i] = (struct tinoweala_part){0, 0};
    *draws = 0;
    zero_memory(n, m, numbers, words);
    return 0;
}

uint32_t plain_label(
    size_t n, const uint32_t *sources, size_t m, const uint32_t *targets, size_t targets_len, const uint8_t *kinds, size_t kinds_len, uint8_t mask,
    uint32_t *label, size_t label_len, uint32_t *numbers, size_t numbers_len, uint64_t *words, size_t words_len) {
    uint32_t no = plain_check_table(n, sources, m, targets, targets_len, kinds, kinds_len);
    if (no) return no;
    if (label_len != n) return 5;
    if (memory_short(n, m, numbers_len, words_len)) return 6;
    struct graph g = {n, m, sources, targets, kinds, mask};
    ways_for(n)->labels(&g, label);
    zero_memory(n, m, numbers, words);
    return 0;
}

/* Of the counted edges that enter v from a vertex one step nearer, and of v's label where labels are given, the smallest number; NO_EDGE if there is none. */
static void nearer_edges(const struct graph *g, const uint32_t *label, const uint32_t *distance, uint32_t *edge) {
    for (size_t v = 0; v < g->n; v++) edge[v] = TINOWEALA_NO_EDGE;
    for (size_t e = g->m; e-- > 0;) {
        uint32_t u = g->from[e], v = g->to[e];
        if (!counts(g, e) || distance[u] == FAR || distance[v] != distance[u] + 1) continue;
        if (!label || label[u] == label[v]) edge[v] = (uint32_t)e;
    }
}

uint32_t plain_path(
    size_t n, const uint32_t *sources, size_t m, const uint32_t *targets, size_t targets_len, const uint8_t *kinds, size_t kinds_len, uint8_t mask,
    size_t u, size_t v, uint32_t *room, size_t room_len, uint32_t *numbers, size_t numbers_len, uint64_t *words, size_t words_len, size_t *length) {
    static uint32_t distance[MOST_N], edge[MOST_N];
    uint32_t no = plain_check_table(n, sources, m, targets, targets_len, kinds, kinds_len);
    if (no) return no;
    if (memory_short(n, m, numbers_len, words_len)) return 6;
    if (u >= n || v >= n) return 9;
    zero_memory(n, m, numbers, words);
    struct graph g = {n, m, sources, targets, kinds, mask};
    ways_for(n)->distances(&g, u, distance);
    if (distance[v] == FAR) return 11;
    if (distance[v] > room_len) return 12;
    nearer_edges(&g, NULL, distance, edge);
    *length = distance[v];
    for (size_t i = distance[v]; i-- > 0; v = sources[room[i]]) room[i] = edge[v];
    return 0;
}

uint32_t plain_write_certificate(
    size_t n, const uint32_t *sources, size_t m, const uint32_t *targets, size_t targets_len, const uint8_t *kinds, size_t kinds_len, uint8_t mask,
    const uint32_t *label, size_t label_len, uint32_t *rank, size_t rank_len, uint32_t *in_edge, size_t in_edge_len, uint32_t *in_distance,
    size_t in_distance_len, uint32_t *out_edge, size_t out_edge_len, uint32_t *out_distance, size_t out_distance_len, uint32_t *numbers,
    size_t numbers_len, uint64_t *words, size_t words_len) {
    static uint32_t right[MOST_N];
    uint32_t no = plain_check_table(n, sources, m, targets, targets_len, kinds, kinds_len);
    if (no) return no;
    if (label_len != n || rank_len != n || in_edge_len != n || in_distance_len != n || out_edge_len != n || out_distance_len != n) return 5;
    if (memory_short(n, m, numbers_len, words_len)) return 6;
    zero_memory(n, m, numbers, words);
    struct graph g = {n, m, sources, targets, kinds, mask}, back = turned(&g);
    ways_for(n)->labels(&g, right);
    for (size_t v = 0; v < n; v++) {
        if (label[v] != right[v]) return 10;
    }
    ways_for(n)->ranks(&g, label, rank);
    ways_for(n)->from_labels(&g, label, in_distance);
    ways_for(n)->from_labels(&back, label, out_distance);
    nearer_edges(&g, label, in_distance, in_edge);
    nearer_edges(&back, label, out_distance, out_edge);
    return 0;
}

/* Check 3 at v, and with the columns of the edges exchanged check 4. */
static bool entry_fits(
    const struct graph *g, const uint32_t *label, const uint32_t *edge, const uint32_t *distance, size_t v) {
    if (label[v] == v) return edge[v] == TINOWEALA_NO_EDGE && distance[v] == 0;
    if (edge[v] >= g->m || !counts(g, edge[v]) || g->to[edge[v]] != v) return false;
    uint32_t u = g->from[edge[v]];
    return label[u] == label[v] && distance[v] < g->n && distance[v] == (uint64_t)distance[u] + 1;
}

uint32_t plain_check_certificate(
    size_t n, const uint32_t *sources, size_t m, const uint32_t *targets, size_t targets_len, const uint8_t *kinds, size_t kinds_len, uint8_t mask,
    const uint32_t *label, size_t label_len, const uint32_t *rank, size_t rank_len, const uint32_t *in_edge, size_t in_edge_len,
    const uint32_t *in_distance, size_t in_distance_len, const uint32_t *out_edge, size_t out_edge_len, const uint32_t *out_distance,
    size_t out_distance_len, uint32_t *check, size_t *place) {
    uint32_t no = plain_check_table(n, sources, m, targets, targets_len, kinds, kinds_len);
    if (no) return no;
    if (label_len != n || rank_len != n || in_edge_len != n || in_distance_len != n || out_edge_len != n || out_distance_len != n) return 5;
    struct graph g = {n, m, sources, targets, kinds, mask}, back = turned(&g);
    for (*place = 0; *place < n; ++*place) {
        size_t v = *place;
        if (!(label[v] <= v && label[label[v]] == label[v])) return *check = 1, 0;
        if (!(rank[v] < n && rank[v] == rank[label[v]])) return *check = 2, 0;
        if (!entry_fits(&g, label, in_edge, in_distance, v)) return *check = 3, 0;
        if (!entry_fits(&back, label, out_edge, out_distance, v)) return *check = 4, 0;
    }
    for (*place = 0; *place < m; ++*place) {
        uint32_t u = sources[*place], v = targets[*place];
        if (counts(&g, *place) && !(label[u] == label[v] || rank[u] < rank[v])) return *check = 5, 0;
    }
    *check = 0;
    *place = 0;
    return 0;
}

uint32_t plain_summary(size_t n, const uint32_t *label, size_t label_len, uint32_t *own, uint32_t *rings, uint32_t *largest) {
    static uint32_t shared[MOST_N];
    if (n > 65536) return 1;
    if (label_len != n) return 5;
    for (size_t v = 0; v < n; v++) {
        if (label[v] >= n) return 9;
    }
    for (size_t v = 0; v < n; v++) shared[v] = 0;
    for (size_t v = 0; v < n; v++) shared[label[v]]++;
    *own = *rings = *largest = 0;
    for (size_t v = 0; v < n; v++) {
        *own += label[v] == v;
        *rings += shared[v] >= 2;
        if (shared[v] > *largest) *largest = shared[v];
    }
    return 0;
}

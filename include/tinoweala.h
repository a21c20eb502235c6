/*
 * Tinoweala for C and C++: groups of vertices that reach each other, at full size (65,536 vertices and
 * 262,144 edges).
 *
 * Vertices are 0 to n - 1. The edge table is three columns with an element for each edge: edge e leads from
 * sources[e] to targets[e], and kinds[e], a byte from 0 to 7, is its kind. Loops and repeated edges are
 * allowed.
 *
 * The mask of a call, eight bits, says which kinds count: edge e counts exactly if bit kinds[e] of mask is 1.
 * An edge that does not count takes no part in reaching, trimming, slicing, paths, edge counts, ranks or
 * check 5, and cannot be an in-edge or an out-edge. It stays an edge of the table all the same: it keeps its
 * number, is tested as the others are, and adds to the working memory that a call needs.
 *
 * For a table without kinds lend a zero for each edge, such as calloc gives or static memory has, and the
 * mask TINOWEALA_EVERY_KIND: then every edge counts.
 *
 * A set of vertices is tinoweala_set_words(n) words of 64 bits: vertex v is bit v % 64 of word v / 64. Bits
 * at n and above are disregarded when read and zero when written.
 *
 * What holds of every function here:
 * - Any arguments may be given. An array is a pointer and the number of its elements, in this order; a null
 *   pointer with 0 elements is an empty array. Every other pointer points at that many elements of its type,
 *   aligned as that type is. A single number or struct that is lent (as *vertices, *chooser) is not null. A
 *   column is an array with an element for each edge (those of the table) or for each vertex (all others).
 * - No memory that a function writes may overlap any other memory that it is given: of such calls nothing is
 *   promised.
 * - The result is TINOWEALA_DONE (0) or the number of the refusal. Each function names the numbers that it
 *   tests, in the order in which it tests them: where several apply, it gives the first.
 * - A refusal changes nothing that was lent, neither arrays nor single numbers nor structs, but that 10, 11
 *   and 12, where working memory is lent, leave its needed front zero.
 * - Working memory is two arrays, numbers and words, with at least tinoweala_numbers(n, m) and
 *   tinoweala_words(n) elements for m edges, else 6; it may hold anything. After a completed call this front
 *   is zero; what lies beyond it is as it was, after any call.
 * - Nothing is allocated, nothing is kept from one call to the next, and a call works on its arguments alone.
 */
#ifndef TINOWEALA_H
#define TINOWEALA_H

#include <stdbool.h>
#include <stddef.h>
#include <stdint.h>

#ifdef __cplusplus
extern "C" {
#endif

/* The result of a call. 17 to 20 are not given. */
enum tinoweala_result {
    TINOWEALA_DONE = 0,
    TINOWEALA_TOO_MANY_VERTICES = 1,  /* n above 65,536 */
    TINOWEALA_UNEVEN_COLUMNS = 2,     /* sources and targets differ in length */
    TINOWEALA_TOO_MANY_EDGES = 3,     /* more than 262,144 edges */
    TINOWEALA_END_OUTSIDE = 4,        /* an edge end is not below n */
    TINOWEALA_WRONG_LENGTH = 5,       /* a column of vertices not n long, a set not as long as
                                         tinoweala_set_words(n), or the reader's columns shorter than
                                         the edge count */
    TINOWEALA_MEMORY_SHORT = 6,       /* working numbers or working words too few */
    TINOWEALA_LIST_SHORT = 7,         /* fewer than n records in the list of waiting parts */
    TINOWEALA_UNKNOWN_CHOICE = 8,     /* method above 1, pivot kind above 2 or order above 1 */
    TINOWEALA_VERTEX_OUTSIDE = 9,     /* a vertex asked about, or a label in the summary, is not below n */
    TINOWEALA_WRONG_LABELS = 10,      /* the writer of a certificate was given a label column that is not the
                                         right one */
    TINOWEALA_NO_PATH = 11,           /* no path from u to v by edges that count */
    TINOWEALA_ROOM_SHORT = 12,        /* room for the result is less than its length */
    TINOWEALA_FIRST_LINE_FAULTY = 13, /* text: first line faulty or missing */
    TINOWEALA_SIZE_LINE_FAULTY = 14,  /* text: size line faulty or missing */
    TINOWEALA_ENTRY_FAULTY = 15,      /* text: an entry line faulty, or too few or too many entries */
    TINOWEALA_INPUT_TOO_LONG = 16,    /* the program's input is over 65,536 bytes */
    TINOWEALA_UNEVEN_KINDS = 21,      /* kinds are not as many as edges; tested after 2 and before 3 */
    TINOWEALA_KIND_OUTSIDE = 22       /* a kind is above 7, whatever the mask; tested after 4 and before 5 */
};

#define TINOWEALA_MOST_VERTICES 65536u
#define TINOWEALA_MOST_EDGES 262144u
#define TINOWEALA_NO_EDGE UINT32_C(4294967295) /* in in_edge and out_edge: no edge */

/* Masks: every kind, and kind k alone, for k from 0 to 7. Masks are joined by |, and every kind but k is
 * TINOWEALA_EVERY_KIND & ~TINOWEALA_KIND(k). */
#define TINOWEALA_EVERY_KIND 255u
#define TINOWEALA_KIND(k) (1u << (k))

/* The length of a set of vertices, as a constant expression where n is one, and as a function. */
#define TINOWEALA_SET_WORDS(n) ((size_t)(n) / 64 + ((size_t)(n) % 64 != 0))
static inline size_t tinoweala_set_words(size_t n) {
    return TINOWEALA_SET_WORDS(n);
}

/* The working numbers that a call on n vertices and m edges, both within the limits, needs. */
#define TINOWEALA_NUMBERS(n, m) (12 * (size_t)(n) + 2 * (size_t)(m) + 16)
static inline size_t tinoweala_numbers(size_t n, size_t m) {
    return TINOWEALA_NUMBERS(n, m);
}

/* The working words that a call on n vertices needs. */
#define TINOWEALA_WORDS(n) (6 * TINOWEALA_SET_WORDS(n))
static inline size_t tinoweala_words(size_t n) {
    return TINOWEALA_WORDS(n);
}

/* The table check: 1, 2, 21, 3, 4, 22. It gets no mask: kinds that do not count are tested too. */
uint32_t tinoweala_check_table(
    size_t n,
    const uint32_t *sources, size_t sources_len,
    const uint32_t *targets, size_t targets_len,
    const uint8_t *kinds, size_t kinds_len);

/*
 * The search: 1, 2, 21, 3, 4, 22, 5, 6.
 * starts, permitted and reached are sets, else 5. reached becomes the set of permitted vertices reached from
 * permitted starts by chains that stay permitted, of edges that count, and *vertices its size. *edges becomes
 * the number of edges that count and whose source was reached, targets outside included; backward, along the
 * turned edges, the number of those whose target was reached, sources outside included.
 */
uint32_t tinoweala_search(
    size_t n,
    const uint32_t *sources, size_t sources_len,
    const uint32_t *targets, size_t targets_len,
    const uint8_t *kinds, size_t kinds_len, uint8_t mask,
    const uint64_t *starts, size_t starts_len,
    const uint64_t *permitted, size_t permitted_len,
    bool backward,
    uint64_t *reached, size_t reached_len,
    uint32_t *numbers, size_t numbers_len,
    uint64_t *words, size_t words_len,
    size_t *vertices, size_t *edges);

/*
 * Trimming: 1, 2, 21, 3, 4, 22, 5, 6.
 * part and left are sets, else 5. An edge of the part is one that counts and has both its ends there; a loop
 * may be one. left becomes what is left of part when a vertex that no such edge enters, or none leaves, is
 * removed, again and again until there is none. *vertices becomes the size of left.
 */
uint32_t tinoweala_trim(
    size_t n,
    const uint32_t *sources, size_t sources_len,
    const uint32_t *targets, size_t targets_len,
    const uint8_t *kinds, size_t kinds_len, uint8_t mask,
    const uint64_t *part, size_t part_len,
    uint64_t *left, size_t left_len,
    uint32_t *numbers, size_t numbers_len,
    uint64_t *words, size_t words_len,
    size_t *vertices);

/*
 * The linear engine: 1, 2, 21, 3, 4, 22, 5, 6.
 * label, n long (else 5), becomes the label column: the label of v is the smallest vertex that v reaches and
 * that reaches v, by edges that count. label may hold anything before, and during the call it holds other
 * numbers. On every table the search makes six steps for each vertex and one for each edge that counts: the
 * first choice for labels. The decomposer, below, gives the same column by other engines.
 */
uint32_t tinoweala_label(
    size_t n,
    const uint32_t *sources, size_t sources_len,
    const uint32_t *targets, size_t targets_len,
    const uint8_t *kinds, size_t kinds_len, uint8_t mask,
    uint32_t *label, size_t label_len,
    uint32_t *numbers, size_t numbers_len,
    uint64_t *words, size_t words_len);

/* The methods of the decomposer. */
enum tinoweala_method {
    TINOWEALA_FORWARD_BACKWARD = 0,
    TINOWEALA_OBF = 1
};

/* The orders of the decomposer: which of the waiting parts is taken next. */
enum tinoweala_order {
    TINOWEALA_NEWEST_FIRST = 0,
    TINOWEALA_OLDEST_FIRST = 1
};

/* The pivot kinds: how the chooser takes the pivot of a part. They have nothing to do with kinds of edges. */
enum tinoweala_pivot_kind {
    TINOWEALA_PIVOT_LOWEST = 0, /* the lowest vertex of the part */
    TINOWEALA_PIVOT_DRAWN = 1,  /* the state becomes 1664525 * state + 1013904223 modulo 2^32; the pivot is
                                   the vertex at place state % k, from 0 on, among the part's k vertices in
                                   rising order */
    TINOWEALA_PIVOT_LISTED = 2  /* the first element of the caller's list that is a vertex of the part, any
                                   other passed over; the lowest vertex if there is none */
};

struct tinoweala_chooser {
    uint32_t kind;  /* a pivot kind */
    uint32_t state; /* of the draws */
};

/*
 * A record of the list of waiting parts; it may hold anything before a call. During the call first is a
 * place, not a vertex: that of the part's first vertex in the row of all vertices (rising; for
 * TINOWEALA_PIVOT_LISTED those of the caller's list before the others). slicing is 1 if TINOWEALA_OBF has
 * still to slice the part.
 */
struct tinoweala_part {
    uint32_t first;
    uint32_t slicing;
};

/*
 * The decomposer: 1, 2, 21, 3, 4, 22, 5, 6, 7, 8.
 * label, n long (else 5), becomes the label column, for every method, order and chooser the very one that
 * tinoweala_label gives. list, the caller's list, is read for TINOWEALA_PIVOT_LISTED alone; it may be empty
 * and of any length. waiting, the list of waiting parts, has at least n records (else 7); the first n are
 * zero afterwards, the others as they were. *draws becomes the number of draws: 0 but for
 * TINOWEALA_PIVOT_DRAWN, which draws once for every pivot, at least as often as there are labels shared by
 * two or more vertices and at most 2 * n times. The chooser's state is advanced that many times, its pivot
 * kind stays.
 */
uint32_t tinoweala_decompose(
    size_t n,
    const uint32_t *sources, size_t sources_len,
    const uint32_t *targets, size_t targets_len,
    const uint8_t *kinds, size_t kinds_len, uint8_t mask,
    uint32_t method, uint32_t order,
    struct tinoweala_chooser *chooser,
    const uint32_t *list, size_t list_len,
    struct tinoweala_part *waiting, size_t waiting_len,
    uint32_t *label, size_t label_len,
    uint32_t *numbers, size_t numbers_len,
    uint64_t *words, size_t words_len,
    size_t *draws);

/*
 * The shortest path: 1, 2, 21, 3, 4, 22, 6, 9, 11, 12.
 * The front of room becomes the edge numbers of the shortest path from u to v by edges that count, in walking
 * order, *length their number; the rest of room is as it was. Among shortest paths: walk back from v, each
 * time by the smallest number of an edge that counts and whose source is one step nearer to u. u = v has
 * length 0. 9: u or v is not below n. 11: v is not reached. 12: the length exceeds room_len.
 */
uint32_t tinoweala_path(
    size_t n,
    const uint32_t *sources, size_t sources_len,
    const uint32_t *targets, size_t targets_len,
    const uint8_t *kinds, size_t kinds_len, uint8_t mask,
    size_t u, size_t v,
    uint32_t *room, size_t room_len,
    uint32_t *numbers, size_t numbers_len,
    uint64_t *words, size_t words_len,
    size_t *length);

/*
 * The writer of a certificate: 1, 2, 21, 3, 4, 22, 5, 6, 10.
 * From the right label column it makes the other five; all six are n long, else 5. rank becomes the greatest
 * number of edges between different labels on any path that ends at the vertex; in_distance and out_distance
 * the shortest distance from the label and to it; in_edge and out_edge the smallest number of an edge that
 * counts and fits these distances, TINOWEALA_NO_EDGE at a vertex that is its own label. Paths and distances
 * are by edges that count. 10: label is not the right column for this mask; the other five are then as they
 * were.
 */
uint32_t tinoweala_write_certificate(
    size_t n,
    const uint32_t *sources, size_t sources_len,
    const uint32_t *targets, size_t targets_len,
    const uint8_t *kinds, size_t kinds_len, uint8_t mask,
    const uint32_t *label, size_t label_len,
    uint32_t *rank, size_t rank_len,
    uint32_t *in_edge, size_t in_edge_len,
    uint32_t *in_distance, size_t in_distance_len,
    uint32_t *out_edge, size_t out_edge_len,
    uint32_t *out_distance, size_t out_distance_len,
    uint32_t *numbers, size_t numbers_len,
    uint64_t *words, size_t words_len);

/*
 * The checker of a certificate: 1, 2, 21, 3, 4, 22, 5. All six columns are n long, else 5. It gets no working
 * memory.
 * It tests the vertices v in rising order, each by checks 1 to 4, then the edges that count in rising order
 * by check 5, in whole numbers:
 * 1  label[v] is at most v and is its own label;
 * 2  rank[v] is below n and is the rank of its label;
 * 3  if v is its own label, in_edge[v] is TINOWEALA_NO_EDGE and in_distance[v] is 0; else in_edge[v] is an
 *    edge that counts and enters v from a vertex of the same label, and in_distance[v] is below n and one
 *    more than at that vertex;
 * 4  the same for out_edge[v]: it leaves v, and out_distance[v] is one more than at its target;
 * 5  an edge that counts, if it is between different labels, leads to a greater rank.
 * Done with *check = 0 and *place = 0: accepted, and label is then the right label column for this mask. Done
 * with *check from 1 to 5: the first failed check, and *place its vertex, for check 5 its edge.
 */
uint32_t tinoweala_check_certificate(
    size_t n,
    const uint32_t *sources, size_t sources_len,
    const uint32_t *targets, size_t targets_len,
    const uint8_t *kinds, size_t kinds_len, uint8_t mask,
    const uint32_t *label, size_t label_len,
    const uint32_t *rank, size_t rank_len,
    const uint32_t *in_edge, size_t in_edge_len,
    const uint32_t *in_distance, size_t in_distance_len,
    const uint32_t *out_edge, size_t out_edge_len,
    const uint32_t *out_distance, size_t out_distance_len,
    uint32_t *check, size_t *place);

/*
 * The summary of a label column: 1, 5, 9. It gets no table and no working memory.
 * *own becomes the number of vertices that are their own label, *rings the number of labels shared by two or
 * more vertices, *largest the largest number of vertices that share one label; n = 0 gives three zeros. 5:
 * label is not n long. 9: a label is not below n. Nothing else is tested: a column that is wrong as a
 * labelling is summed up as it is.
 */
uint32_t tinoweala_summary(
    size_t n,
    const uint32_t *label, size_t label_len,
    uint32_t *own, uint32_t *rings, uint32_t *largest);

/*
 * The reader of a Matrix Market text: 13, 14, 1, 3, 5, 15. The first faulty line decides; a missing one
 * is taken to stand after the last.
 * Line 1 is exactly "%%MatrixMarket matrix coordinate pattern general", else 13. Lines that begin with % are
 * skipped until the size line: rows, columns, entries; rows equal columns and are n, else 14, as for a faulty
 * line before it. Then 1: n above 65,536; 3: more than 262,144 entries; 5: sources or targets shorter than
 * the entries. Each entry i j, with 1 <= i, j <= n, is the edge from i - 1 to j - 1; 15: an entry line is
 * faulty, or there are too few or too many. Empty lines and lines of spaces may stand after line 1. Numbers
 * have 1 to 9 digits, leading zeros allowed, with one or more spaces between and any before or after. Lines
 * end with LF, the last may lack it; a line over 1,024 bytes, its LF aside, is faulty, as is any other byte
 * outside the lines that are skipped.
 * The fronts of sources and targets become the edges of the text, their other elements are as they were; *n
 * becomes the number of vertices, *edges that of edges. A text has no kinds: lend zeros with its table.
 */
uint32_t tinoweala_read_text(
    const uint8_t *text, size_t text_len,
    uint32_t *sources, size_t sources_len,
    uint32_t *targets, size_t targets_len,
    size_t *n, size_t *edges);

/*
 * The writer of a label file: 1, label is longer than 65,536; 12, out is shorter than the file.
 * The front of out becomes the file: the line "%%MatrixMarket matrix array integer general", the number of
 * labels and 1, then each label plus one, a line each; *bytes becomes its length, and the rest of out is as
 * it was. A column that is wrong as a labelling is written as it is.
 */
uint32_t tinoweala_write_labels(
    const uint32_t *label, size_t label_len,
    uint8_t *out, size_t out_len,
    size_t *bytes);

/*
 * The package service's call, of libentry.a: 13, 14, 1, 3, 15 as the reader gives them, but with at most 512
 * vertices (else 1) and 4,096 edges (else 3), and then 12 if out is shorter than the label file. The text may
 * have any length.
 * The result is the number of bytes written, or minus the number of the refusal. The front of out becomes the
 * label file of the text's groups, and the rest of out is as it was; a refusal leaves all of out as it was.
 * It brings its own working memory, some 100 KB of the stack.
 */
int64_t tinoweala_label_text(const uint8_t *text, size_t text_len, uint8_t *out, size_t out_len);

#ifdef __cplusplus
}
#endif

#endif

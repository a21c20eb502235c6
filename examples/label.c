/* Groups a chain of rings under a cover sheet: the labels, the same by method 1, then their certificate and its checker. */
#include <stdio.h>
#include "tinoweala.h"

enum { N = 9, M = 15, NUMBERS = TINOWEALA_NUMBERS(N, M), WORDS = TINOWEALA_WORDS(N) };

/* Vertex 0, a cover sheet, refers to every ring of the chain 1 2, 3 4, 5 6, 7 8. As the chain grows, method 1 by the lowest pivots
 * becomes quadratic; tinoweala_label stays linear. */
static const uint32_t sources[M] = {0, 0, 0, 0, 1, 2, 2, 3, 4, 4, 5, 6, 6, 7, 8};
static const uint32_t targets[M] = {1, 3, 5, 7, 2, 1, 3, 4, 3, 5, 6, 5, 7, 8, 7};
static const uint8_t kinds[M] = {0}; /* the table has none: zeros */

static uint32_t label[N], other[N], rank[N], in_edge[N], in_distance[N], out_edge[N], out_distance[N];
static struct tinoweala_part waiting[N];
static uint32_t numbers[NUMBERS];
static uint64_t words[WORDS];

static void column(const char *name, const uint32_t *of) {
    printf("%s", name);
    for (size_t v = 0; v < N; v++) {
        if (of[v] == TINOWEALA_NO_EDGE) {
            printf(" -");
        } else {
            printf(" %u", of[v]);
        }
    }
    printf("\n");
}

int main(void) {
    uint32_t no = tinoweala_label(
        N, sources, M, targets, M, kinds, M, TINOWEALA_EVERY_KIND, label, N, numbers, NUMBERS, words, WORDS);
    if (no != TINOWEALA_DONE) {
        printf("labels: refused %u\n", no);
        return 1;
    }
    column("label", label);

    struct tinoweala_chooser chooser = {TINOWEALA_PIVOT_LOWEST, 0};
    size_t draws = 0, same = 0;
    no = tinoweala_decompose(
        N, sources, M, targets, M, kinds, M, TINOWEALA_EVERY_KIND, TINOWEALA_OBF, TINOWEALA_NEWEST_FIRST, &chooser, NULL, 0,
        waiting, N, other, N, numbers, NUMBERS, words, WORDS, &draws);
    if (no != TINOWEALA_DONE) {
        printf("method 1: refused %u\n", no);
        return 1;
    }
    for (size_t v = 0; v < N; v++) same += other[v] == label[v];
    printf("method 1: %lu of %u labels are the same\n", (unsigned long)same, N);

    no = tinoweala_write_certificate(
        N, sources, M, targets, M, kinds, M, TINOWEALA_EVERY_KIND, label, N, rank, N, in_edge, N, in_distance, N, out_edge, N,
        out_distance, N, numbers, NUMBERS, words, WORDS);
    if (no != TINOWEALA_DONE) {
        printf("certificate: refused %u\n", no);
        return 1;
    }
    column("rank", rank);
    column("in-edge", in_edge);
    column("in-distance", in_distance);
    column("out-edge", out_edge);
    column("out-distance", out_distance);

    uint32_t check = 0, own = 0, rings = 0, largest = 0;
    size_t place = 0;
    no = tinoweala_check_certificate(
        N, sources, M, targets, M, kinds, M, TINOWEALA_EVERY_KIND, label, N, rank, N, in_edge, N, in_distance, N, out_edge, N,
        out_distance, N, &check, &place);
    if (no != TINOWEALA_DONE || check != 0) {
        printf("not accepted: %u, check %u at %lu\n", no, check, (unsigned long)place);
        return 1;
    }
    no = tinoweala_summary(N, label, N, &own, &rings, &largest);
    printf("accepted: %u groups, %u rings, the largest of %u\n", own, rings, largest);
    return no == TINOWEALA_DONE && same == N ? 0 : 1;
}

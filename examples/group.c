/* Groups the vertices of a small table: the labels, then their certificate, which the checker accepts or not. */
#include <stdio.h>
#include "tinoweala.h"

enum { N = 6, M = 7, NUMBERS = TINOWEALA_NUMBERS(N, M), WORDS = TINOWEALA_WORDS(N) };

/* The table has no kinds: zeros are lent, and the mask of every kind. */
static const uint32_t sources[M] = {0, 1, 2, 2, 3, 4, 5};
static const uint32_t targets[M] = {1, 2, 0, 3, 4, 3, 5};
static const uint8_t kinds[M] = {0};

static uint32_t label[N], rank[N], in_edge[N], in_distance[N], out_edge[N], out_distance[N];
static struct tinoweala_part waiting[N];
static uint32_t numbers[NUMBERS];
static uint64_t words[WORDS];

static void column(const char *name, const uint32_t *of) {
    printf("%s", name);
    for (size_t v = 0; v < N; v++) {
        if (of[v] == TINOWEALA_NO_EDGE) {
            printf(" -");
        } else {
            printf(" %u", of[v]);
        }
    }
    printf("\n");
}

int main(void) {
    /* Other methods, orders and pivot kinds give the same labels. */
    struct tinoweala_chooser chooser = {TINOWEALA_PIVOT_DRAWN, 0};
    size_t draws = 0;
    uint32_t no = tinoweala_decompose(
        N, sources, M, targets, M, kinds, M, TINOWEALA_EVERY_KIND, TINOWEALA_OBF, TINOWEALA_OLDEST_FIRST, &chooser, NULL, 0,
        waiting, N, label, N, numbers, NUMBERS, words, WORDS, &draws);
    if (no != TINOWEALA_DONE) {
        printf("groups: refused %u\n", no);
        return 1;
    }
    column("label", label);

    no = tinoweala_write_certificate(
        N, sources, M, targets, M, kinds, M, TINOWEALA_EVERY_KIND, label, N, rank, N, in_edge, N, in_distance, N, out_edge, N,
        out_distance, N, numbers, NUMBERS, words, WORDS);
    if (no != TINOWEALA_DONE) {
        printf("certificate: refused %u\n", no);
        return 1;
    }
    column("rank", rank);
    column("in-edge", in_edge);
    column("in-distance", in_distance);
    column("out-edge", out_edge);
    column("out-distance", out_distance);

    uint32_t check = 0, own = 0, rings = 0, largest = 0;
    size_t place = 0;
    no = tinoweala_check_certificate(
        N, sources, M, targets, M, kinds, M, TINOWEALA_EVERY_KIND, label, N, rank, N, in_edge, N, in_distance, N, out_edge, N,
        out_distance, N, &check, &place);
    if (no != TINOWEALA_DONE || check != 0) {
        printf("not accepted: %u, check %u at %lu\n", no, check, (unsigned long)place);
        return 1;
    }
    no = tinoweala_summary(N, label, N, &own, &rings, &largest);
    printf("accepted: %u groups, %u rings, the largest of %u\n", own, rings, largest);
    return no == TINOWEALA_DONE ? 0 : 1;
}

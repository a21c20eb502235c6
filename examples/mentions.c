/* References bind and mentions do not: the labels, two paths and the certificate, first with both, then by references alone. */
#include <stdio.h>
#include "tinoweala.h"

enum { N = 5, M = 7, NUMBERS = TINOWEALA_NUMBERS(N, M), WORDS = TINOWEALA_WORDS(N) };
enum { REFERENCE = 0, MENTION = 1 };
enum { BOTH = TINOWEALA_EVERY_KIND, REFERENCES = TINOWEALA_KIND(REFERENCE) };

/* Edge 2 closes the ring 0 1 2, edge 6 is a short cut from 0 to 3; both only mention. The ring 3 4 is of references. */
static const uint32_t sources[M] = {0, 1, 2, 2, 3, 4, 0};
static const uint32_t targets[M] = {1, 2, 0, 3, 4, 3, 3};
static const uint8_t kinds[M] = {REFERENCE, REFERENCE, MENTION, REFERENCE, REFERENCE, REFERENCE, MENTION};

static uint32_t label[N], rank[N], in_edge[N], in_distance[N], out_edge[N], out_distance[N];
static struct tinoweala_part waiting[N];
static uint32_t numbers[NUMBERS];
static uint64_t words[WORDS];

static void row(const uint32_t *of, size_t len) {
    for (size_t i = 0; i < len; i++) {
        if (of[i] == TINOWEALA_NO_EDGE) {
            printf(" -");
        } else {
            printf(" %u", of[i]);
        }
    }
    printf("\n");
}

static void column(const char *name, const uint32_t *of) {
    printf("  %s", name);
    row(of, N);
}

static void find_labels(uint8_t mask) {
    struct tinoweala_chooser chooser = {TINOWEALA_PIVOT_LOWEST, 0};
    size_t draws = 0;
    uint32_t no = tinoweala_decompose(
        N, sources, M, targets, M, kinds, M, mask, TINOWEALA_FORWARD_BACKWARD, TINOWEALA_NEWEST_FIRST, &chooser, NULL, 0,
        waiting, N, label, N, numbers, NUMBERS, words, WORDS, &draws);
    if (no != TINOWEALA_DONE) printf("labels: refused %u\n", no);
    column("label", label);
}

static void find_path(uint8_t mask, size_t u, size_t v) {
    uint32_t room[N];
    size_t length = 0;
    uint32_t no = tinoweala_path(
        N, sources, M, targets, M, kinds, M, mask, u, v, room, N, numbers, NUMBERS, words, WORDS, &length);
    if (no == TINOWEALA_NO_PATH) {
        printf("  no path from %u to %u\n", (unsigned)u, (unsigned)v);
    } else {
        printf("  path from %u to %u: edges", (unsigned)u, (unsigned)v);
        row(room, length);
    }
}

static void certify(uint8_t mask) {
    uint32_t no = tinoweala_write_certificate(
        N, sources, M, targets, M, kinds, M, mask, label, N, rank, N, in_edge, N, in_distance, N, out_edge, N, out_distance, N,
        numbers, NUMBERS, words, WORDS);
    if (no != TINOWEALA_DONE) printf("certificate: refused %u\n", no);
    column("rank", rank);
    column("in-edge", in_edge);
    column("in-distance", in_distance);
    column("out-edge", out_edge);
    column("out-distance", out_distance);
}

static void check(uint8_t mask, const char *by) {
    uint32_t failed = 0;
    size_t place = 0;
    uint32_t no = tinoweala_check_certificate(
        N, sources, M, targets, M, kinds, M, mask, label, N, rank, N, in_edge, N, in_distance, N, out_edge, N, out_distance, N,
        &failed, &place);
    if (no != TINOWEALA_DONE) printf("checker: refused %u\n", no);
    if (failed == 0) {
        printf("  checked by %s: accepted\n", by);
    } else {
        printf("  checked by %s: check %u fails at %s %u\n", by, failed, failed == 5 ? "edge" : "vertex", (unsigned)place);
    }
}

static void ask(uint8_t mask, const char *by) {
    printf("by %s\n", by);
    find_labels(mask);
    find_path(mask, 0, 4);
    find_path(mask, 2, 0);
    certify(mask);
    check(BOTH, "both");
    check(REFERENCES, "references alone");
}

int main(void) {
    ask(BOTH, "both");
    ask(REFERENCES, "references alone");
    return 0;
}

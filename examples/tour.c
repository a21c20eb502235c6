/* A tour of the library on one small table: it reads the table from a text and asks a question of each kind. */
#include <stdio.h>
#include "tinoweala.h"

enum { MOST = 8, NUMBERS = TINOWEALA_NUMBERS(MOST, MOST), WORDS = TINOWEALA_WORDS(MOST) };

static const char text[] =
    "%%MatrixMarket matrix coordinate pattern general\n"
    "6 6 7\n"
    "1 2\n2 3\n3 1\n3 4\n4 5\n5 4\n6 6\n";

static size_t n, m;
static uint32_t sources[MOST], targets[MOST];
static const uint8_t kinds[MOST] = {0}; /* a text has none: zeros */
static uint32_t numbers[NUMBERS];
static uint64_t words[WORDS];

/* The right certificate of the table. */
static const uint32_t label[] = {0, 0, 0, 3, 3, 5};
static const uint32_t rank[] = {0, 0, 0, 1, 1, 0};
static const uint32_t in_edge[] = {TINOWEALA_NO_EDGE, 0, 1, TINOWEALA_NO_EDGE, 4, TINOWEALA_NO_EDGE};
static const uint32_t in_distance[] = {0, 1, 2, 0, 1, 0};
static const uint32_t out_edge[] = {TINOWEALA_NO_EDGE, 1, 2, TINOWEALA_NO_EDGE, 5, TINOWEALA_NO_EDGE};
static const uint32_t out_distance[] = {0, 2, 1, 0, 1, 0};

static void search(uint64_t starts, uint64_t permitted, bool backward) {
    uint64_t reached = 0;
    size_t vertices = 0, edges = 0;
    uint32_t no = tinoweala_search(
        n, sources, m, targets, m, kinds, m, TINOWEALA_EVERY_KIND, &starts, 1, &permitted, 1, backward, &reached, 1, numbers,
        NUMBERS, words, WORDS, &vertices, &edges);
    printf(
        "search %s: %u, set %lu, %lu vertices, %lu edges\n", backward ? "backward" : "forward", no, (unsigned long)reached,
        (unsigned long)vertices, (unsigned long)edges);
}

static void trim(uint64_t part) {
    uint64_t left = 0;
    size_t vertices = 0;
    uint32_t no = tinoweala_trim(
        n, sources, m, targets, m, kinds, m, TINOWEALA_EVERY_KIND, &part, 1, &left, 1, numbers, NUMBERS, words, WORDS, &vertices);
    printf("trim: %u, set %lu, %lu vertices\n", no, (unsigned long)left, (unsigned long)vertices);
}

static void path(size_t u, size_t v, size_t room_len) {
    uint32_t room[MOST];
    size_t length = 0;
    uint32_t no = tinoweala_path(
        n, sources, m, targets, m, kinds, m, TINOWEALA_EVERY_KIND, u, v, room, room_len, numbers, NUMBERS, words, WORDS, &length);
    printf("path from %lu to %lu: %u, edges", (unsigned long)u, (unsigned long)v, no);
    for (size_t i = 0; i < length; i++) {
        printf(" %u", room[i]);
    }
    printf("\n");
}

static void check(const uint32_t *of_rank) {
    uint32_t failed = 0;
    size_t place = 0;
    uint32_t no = tinoweala_check_certificate(
        n, sources, m, targets, m, kinds, m, TINOWEALA_EVERY_KIND, label, n, of_rank, n, in_edge, n, in_distance, n, out_edge, n,
        out_distance, n, &failed, &place);
    printf("certificate: %u, check %u, place %lu\n", no, failed, (unsigned long)place);
}

int main(void) {
    static const uint32_t no_rank[] = {0, 0, 0, 0, 0, 0};
    uint32_t no = tinoweala_read_text((const uint8_t *)text, sizeof text - 1, sources, MOST, targets, MOST, &n, &m);
    printf("text: %u, %lu vertices, %lu edges\n", no, (unsigned long)n, (unsigned long)m);
    printf("table: %u\n", tinoweala_check_table(n, sources, m, targets, m, kinds, m));
    printf("table with one vertex less: %u\n", tinoweala_check_table(n - 1, sources, m, targets, m, kinds, m));
    printf("table with one kind less: %u\n", tinoweala_check_table(n, sources, m, targets, m, kinds, m - 1));
    search(8, 63, false);
    search(8, 63, true);
    search(1, 7, false);
    trim(60);
    path(0, 4, MOST);
    path(0, 4, 3);
    path(4, 0, MOST);
    check(rank);
    check(no_rank);

    uint32_t own = 0, rings = 0, largest = 0;
    no = tinoweala_summary(n, label, n, &own, &rings, &largest);
    printf("summary: %u, %u %u %u\n", no, own, rings, largest);

    uint8_t out[128];
    size_t bytes = 0;
    no = tinoweala_write_labels(label, n, out, sizeof out, &bytes);
    printf("label file: %u\n%.*s", no, (int)bytes, (const char *)out);
    return 0;
}

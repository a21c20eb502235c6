/*
 * The inputs that the program is run on, each with the number that it has to give.
 *   inputs               the name of each
 *   inputs text NAME     the input
 *   inputs answer NAME   what the program has to write: by the plain implementation, whose number has to be the one given here
 */
#include "../compare/plain.h"
#include "../compare/tables.h"
#include "../compare/texts.h"
#include <stdio.h>
#include <string.h>
#include <unistd.h>

/* What document 01 allows the program. */
enum { MOST_INPUT = 65536, MOST_VERTICES = 512, MOST_EDGES = 4096 };

static const char banner[] = "%%MatrixMarket matrix coordinate pattern general\n";

/* Comments that take so many bytes; one of a single byte is an empty line. */
static void put_comments(size_t bytes) {
    for (size_t len; bytes > 0; bytes -= len) {
        len = bytes > 1025 ? 1025 : bytes;
        put_bytes('%', len - 1);
        put("\n");
    }
}

/* The current table's text without its last LF, filled up by comments to so many bytes. */
static void fill_to(size_t bytes) {
    spell_table(0);
    size_t rest = bytes - (text.len - 1);
    begin_text();
    put(banner);
    put_comments(rest);
    put_number(table.n);
    put(" ");
    put_line(table.n, table.m);
    for (size_t e = 0; e < table.m; e++) put_line(table.sources[e] + 1, table.targets[e] + 1);
    text.len--;
}

/* A chain of rings of three vertices, its edges again and again until there are m. */
static void rings(size_t n, size_t m) {
    begin_table("rings", n);
    while (table.m < m) {
        size_t v = table.m % n, back = v / 3 * 3, next = v + 1 < n ? v + 1 : back;
        edge(v, table.m / n % 2 ? back : next);
    }
}

static void drawn_table(size_t n, size_t m) {
    begin_table("drawn", n);
    while (table.m < m) edge(below(n), below(n));
}

static void T(void) {
    make_T();
    spell_table(0);
}

static void T_without_last_LF(void) {
    T();
    text.len--;
}

static void T_with_comments_and_spaces(void) {
    make_T();
    spell_table_oddly();
}

static void nothing(void) {
    begin_text();
}

static void no_vertex(void) {
    begin_table("no vertex", 0);
    spell_table(0);
}

static void one_vertex(void) {
    begin_table("one vertex", 1);
    spell_table(0);
}

static void vertices_512(void) {
    rings(MOST_VERTICES, 2 * MOST_VERTICES);
    spell_table(0);
}

static void vertices_513(void) {
    rings(MOST_VERTICES + 1, 2 * MOST_VERTICES);
    spell_table(0);
}

static void edges_4096(void) {
    drawn_table(MOST_VERTICES, MOST_EDGES);
    spell_table(0);
}

static void edges_4097(void) {
    drawn_table(MOST_VERTICES, MOST_EDGES + 1);
    spell_table(0);
}

static void both_too_many(void) {
    drawn_table(MOST_VERTICES + 1, MOST_EDGES + 1);
    spell_table(0);
}

/* The last entry is `300 10`, which makes one ring of many: without the last byte it is `300 1`, and the labels are others. */
static void bytes_65536(void) {
    rings(MOST_VERTICES, MOST_EDGES - 1);
    edge(299, 9);
    fill_to(MOST_INPUT);
}

static void bytes_65537(void) {
    bytes_65536();
    put("\n");
}

static void bytes_200000(void) {
    bytes_65536();
    put("\n");
    put_bytes(' ', 200000 - text.len);
}

static void bytes_65536_of_no_text(void) {
    begin_text();
    put_bytes('x', MOST_INPUT);
}

static void bytes_65537_of_no_text(void) {
    bytes_65536_of_no_text();
    put("x");
}

static void last_entry_faulty_at_65536(void) {
    bytes_65536();
    text.bytes[text.len - 2] = '0';
    text.bytes[text.len - 1] = ' ';
}

static void first_line_in_other_letters(void) {
    T();
    text.bytes[2] = 'm';
}

static void first_line_alone(void) {
    begin_text();
    put(banner);
}

static void size_line(const char *line) {
    first_line_alone();
    put(line);
}

static void size_line_of_two(void) {
    size_line("6 6\n1 2\n");
}

static void rows_unequal_to_columns(void) {
    size_line("6 5 0\n");
}

static void entry(const char *line) {
    make_T();
    table.m--;
    spell_table(0);
    text.bytes[strlen(banner) + 4] = '7';
    put(line);
}

static void entry_0_1(void) {
    entry("0 1\n");
}

static void entry_above_n(void) {
    entry("6 7\n");
}

static void entry_with_CR(void) {
    entry("6 6\r\n");
}

static void entry_missing(void) {
    entry("");
}

static void entry_too_many(void) {
    T();
    put("1 1\n");
}

static const struct input {
    const char *name;
    void (*make)(void);
    uint32_t number;
} inputs[] = {
    {"T", T, 0},
    {"T without its last LF", T_without_last_LF, 0},
    {"T with comments and spaces", T_with_comments_and_spaces, 0},
    {"nothing", nothing, 13},
    {"no vertex", no_vertex, 0},
    {"one vertex", one_vertex, 0},
    {"512 vertices", vertices_512, 0},
    {"513 vertices", vertices_513, 1},
    {"4096 edges", edges_4096, 0},
    {"4097 edges", edges_4097, 3},
    {"513 vertices and 4097 edges", both_too_many, 1},
    {"65536 bytes", bytes_65536, 0},
    {"65537 bytes", bytes_65537, 16},
    {"200000 bytes", bytes_200000, 16},
    {"65536 bytes of no text", bytes_65536_of_no_text, 13},
    {"65537 bytes of no text", bytes_65537_of_no_text, 16},
    {"65536 bytes, the last entry faulty", last_entry_faulty_at_65536, 15},
    {"first line in other letters", first_line_in_other_letters, 13},
    {"first line alone", first_line_alone, 14},
    {"size line of two numbers", size_line_of_two, 14},
    {"rows unequal to columns", rows_unequal_to_columns, 14},
    {"entry 0 1", entry_0_1, 15},
    {"entry above n", entry_above_n, 15},
    {"entry with CR", entry_with_CR, 15},
    {"entry missing", entry_missing, 15},
    {"entry too many", entry_too_many, 15},
};

/* What the program has to write of the current text; false if the plain implementation gives another number. */
static bool answer(uint32_t number) {
    static uint8_t out[4096];
    char refused[32];
    int64_t got = text.len > MOST_INPUT ? -16 : plain_label_text(text.bytes, text.len, out, sizeof out);
    if (got < 0) {
        int len = snprintf(refused, sizeof refused, "refused %u\n", (unsigned)-got);
        return write(1, refused, (size_t)len) == len && number == (uint32_t)-got;
    }
    return write(1, out, (size_t)got) == got && number == 0;
}

int main(int words, char **word) {
    for (size_t i = 0; i < sizeof inputs / sizeof *inputs; i++) {
        if (words < 3) printf("%s\n", inputs[i].name);
        if (words < 3 || strcmp(inputs[i].name, word[2]) != 0) continue;
        restart_draws();
        inputs[i].make();
        if (strcmp(word[1], "answer") == 0) return !answer(inputs[i].number);
        return write(1, text.bytes, text.len) != (long)text.len;
    }
    fflush(NULL);
    return words >= 3;
}

#include "on_texts.h"
#include "compare.h"
#include "tables.h"
#include "texts.h"
#include <stdlib.h>
#include <string.h>

/* Gives the current text, to the reader with room for so many edges in each slice, to the entry with so many bytes. */
static void read_with(enum function f, size_t first, size_t second) {
    struct call c = call_without_table(f);
    give(&c, TEXT, text.bytes, text.len);
    give(&c, SOURCES, NULL, first);
    give(&c, TARGETS, NULL, second);
    give(&c, OUT, NULL, first);
    compare(&c);
}

/* Most often with more room than needed. */
static void read_text(enum function f) {
    size_t room = f == READ_TEXT ? table.m + 3 : 64 + 5 * table.n;
    read_with(f, below(9) ? room : below(room), below(9) ? room - below(3) : below(room));
}

void odd_spellings(enum function f) {
    for (size_t i = 0; i < 4000; i++) {
        size_t n = 1 + below(i % 20 ? 12 : 512);
        begin_table("drawn", n);
        for (size_t m = below(2 * n + 1); table.m < m;) edge(below(n), below(n));
        spell_table_oddly();
        read_text(f);
    }
}

/* A text that is kept, to be given with changes. */
static uint8_t kept[4096];
static size_t kept_len;

static void keep(void) {
    if (text.len > sizeof kept) _Exit(2);
    kept_len = text.len;
    for (size_t i = 0; i < kept_len; i++) kept[i] = text.bytes[i];
}

/* The text becomes the kept one with the bytes from `from` up to `to` left out, and a byte put in there if there is one. */
static void change(size_t from, size_t to, const uint8_t *byte) {
    begin_text();
    for (size_t i = 0; i < from; i++) put_byte(kept[i]);
    if (byte) put_byte(*byte);
    for (size_t i = to; i < kept_len; i++) put_byte(kept[i]);
}

static const uint8_t others[] = {0, '\n', ' ', '0', '1', '2', '9', '%', '-', '+', '.', '/', ':', '\r', '\t', '\v', 160, 255};

/* At each place: another byte, one more, one less, the end of the text, its beginning. */
static void change_each_byte(enum function f) {
    keep();
    for (size_t at = 0; at <= kept_len; at++) {
        for (size_t i = 0; i < sizeof others; i++) {
            change(at, at + 1, &others[i]);
            read_text(f);
            change(at, at, &others[i]);
            read_text(f);
        }
        change(at, at + 1, NULL);
        read_text(f);
        change(at, kept_len, NULL);
        read_text(f);
        change(0, at, NULL);
        read_text(f);
    }
}

/* Two or three drawn changes after the first line, where a text is not refused at once. */
static void change_some_bytes(enum function f) {
    for (size_t i = 0; i < 2000; i++) {
        spell_table_oddly();
        for (size_t k = 2 + below(2); k > 0; k--) {
            keep();
            size_t at = 49 + below(kept_len - 48);
            change(at, at + below(2), below(3) ? &others[below(sizeof others)] : NULL);
        }
        read_text(f);
    }
}

void bytes_changed(enum function f) {
    make_T();
    spell_table(0);
    change_each_byte(f);
    change_some_bytes(f);
    for (size_t n = 0; n <= 2; n++) {
        begin_table("small", n);
        if (n > 0) edge(n - 1, 0);
        spell_table_oddly();
        change_each_byte(f);
    }
}

static const char *const lines_of_T[] = {"%%MatrixMarket matrix coordinate pattern general", "%", "6 6 7", "1 2", "2 3", "3 1", "3 4", "4 5", "5 4", "6 6"};
enum { LINES_OF_T = sizeof lines_of_T / sizeof *lines_of_T };

/* Puts line k made so many bytes long, by spaces before or after it or by zeros, or in its place such a comment, and then the line. */
static void put_long_line(size_t k, size_t sort, size_t len) {
    const char *line = lines_of_T[k];
    size_t rest = len - (size_t)strlen(line);
    if (sort == 0) put_bytes(' ', rest);
    if (sort == 1) put_bytes('0', rest);
    if (sort <= 2) put(line);
    if (sort == 2) put_bytes(' ', rest);
    if (sort <= 2) return;
    put_bytes(sort == 3 ? '%' : ' ', len);
    put("\n");
    put(line);
}

/* Each line of a text 1,023 to 1,025 bytes long; the text then ends there, or goes on. */
void long_lines(enum function f) {
    make_T();
    for (size_t x = 0; x < LINES_OF_T * 5 * 3; x++) {
        size_t k = x / 15, len = 1023 + x % 3;
        begin_text();
        for (size_t i = 0; i < k; i++) {
            put(lines_of_T[i]);
            put("\n");
        }
        put_long_line(k, x / 3 % 5, len);
        read_text(f);
        put("\n");
        read_text(f);
        for (size_t i = k + 1; i < LINES_OF_T; i++) {
            put(lines_of_T[i]);
            put("\n");
        }
        read_text(f);
        put_bytes(' ', len);
        read_text(f);
    }
}

/* A text of two edges, whose numbers are words: rows, columns, entries, then the ends of the first edge. */
static void put_words(const char *const words[5]) {
    begin_text();
    put("%%MatrixMarket matrix coordinate pattern general\n");
    for (size_t i = 0; i < 5; i++) {
        put(words[i]);
        put(i == 2 || i == 4 ? "\n" : " ");
    }
    put("2 1\n");
}

/* Each number by itself, and every two of them, as other words. */
void words_changed(enum function f) {
    static const char *const words[] = {
        "2", "", "0", "1", "3", "000000002", "0000000002", "000000000", "0000000000", "999999999", "1000000000", "4294967298",
        "18446744073709551618", "-1", "+2", "2.", "2e0", "0x2", "2 2", "x", "2\r", "\t2", "%", "\n2", "2\n", "2%"};
    const size_t count = sizeof words / sizeof *words;
    begin_table("words", 2);
    edge(0, 1);
    edge(1, 0);
    for (size_t x = 0; x < 25 * count * count; x++) {
        const char *chosen[5] = {"2", "2", "2", "1", "2"};
        chosen[x % 5] = words[x / 25 % count];
        chosen[x / 5 % 5] = words[x / 25 / count];
        put_words(chosen);
        read_text(f);
    }
}

/* Size lines around every limit, with one entry after them. */
void size_lines(enum function f) {
    static const size_t sizes[] = {0, 2, 512, 513, 65536, 65537, 999999999}, counts[] = {0, 1, 3, 4096, 4097, 262144, 262145, 999999999};
    for (size_t x = 0; x < 7 * 7 * 8 * 4; x++) {
        begin_text();
        put("%%MatrixMarket matrix coordinate pattern general\n");
        put_number(sizes[x % 7]);
        put(" ");
        put_line(sizes[x / 7 % 7], counts[x / 49 % 8]);
        put_line(1, 1);
        read_with(f, x / 49 / 8, below(4));
        read_with(f, 4096, 4096);
    }
}

/* Every room from none to more than needed. */
void every_room(enum function f) {
    for (size_t n = 0; n <= 12; n++) {
        begin_table("drawn", n);
        while (table.m < n) edge(below(n), below(n));
        spell_table(0);
        size_t most = f == READ_TEXT ? n + 2 : 64 + 4 * n;
        for (size_t room = 0; room <= most; room++) {
            read_with(f, room, most);
            if (f == READ_TEXT) read_with(f, most, room);
            if (f == READ_TEXT) read_with(f, room, room);
        }
    }
}

/* The current table's text, made longer than the program's input may be, as it is, cut, with an entry that is faulty, with one too many. */
static void read_whole(enum function f) {
    spell_table(70);
    read_text(f);
    spell_table_oddly();
    read_text(f);
    spell_table(0);
    text.len--;
    read_text(f);
    text.len--;
    read_text(f);
    put("0");
    read_text(f);
    spell_table(0);
    put_line(1, 1);
    read_text(f);
}

/* As many vertices and edges as are allowed, and one more of each. */
void largest_texts(enum function f) {
    size_t n = f == READ_TEXT ? MOST_N : 512, m = f == READ_TEXT ? MOST_M : 4096;
    for (size_t x = 0; x < 4; x++) {
        begin_table("drawn", n + x % 2);
        while (table.m < m + x / 2) edge(below(table.n), below(table.n));
        spell_table(0);
        read_text(f);
        if (x == 0) read_whole(f);
    }
    for (size_t i = 0; i < family_count && f == LABEL_TEXT; i++) {
        make_table(&families[i], n);
        read_whole(f);
    }
}

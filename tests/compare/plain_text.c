/* The functions on bytes: the reader of a text, the label file, and the entry, which is one after the other. */
#include "definitions.h"
#include "plain.h"
#include <stdio.h>
#include <string.h>

struct line {
    const uint8_t *at;
    size_t len;
};

/* What a line holds: not a faulty thing, then 0 to 3 numbers, or more than that. */
struct content {
    bool faulty;
    size_t count;
    uint32_t number[3];
};

/* Takes the next line off the text; false if there is none. */
static bool take_line(const uint8_t **text, size_t *left, struct line *line) {
    if (*left == 0) return false;
    const uint8_t *lf = memchr(*text, '\n', *left);
    line->at = *text;
    line->len = lf ? (size_t)(lf - *text) : *left;
    size_t taken = line->len + (lf ? 1 : 0);
    *text += taken;
    *left -= taken;
    return true;
}

static struct content content_of(struct line line) {
    struct content c = {line.len > 1024, 0, {0, 0, 0}};
    size_t digits = 0;
    uint32_t value = 0;
    for (size_t i = 0; i <= line.len && !c.faulty; i++) {
        uint8_t byte = i < line.len ? line.at[i] : ' ';
        if (byte == ' ' && digits > 0) {
            if (c.count < 3) c.number[c.count] = value;
            c.count++;
            digits = value = 0;
        } else if (byte != ' ') {
            c.faulty = byte < '0' || byte > '9' || ++digits > 9;
            value = value * 10 + (byte - '0');
        }
    }
    return c;
}

static bool is_banner(struct line line) {
    static const char banner[] = "%%MatrixMarket matrix coordinate pattern general";
    return line.len == strlen(banner) && memcmp(line.at, banner, line.len) == 0;
}

struct limits {
    size_t vertices, edges, room;
};

/* Reads up to and with the size line. */
static uint32_t read_head(const uint8_t **text, size_t *left, struct limits most, size_t *n, size_t *m) {
    struct line line;
    struct content c;
    if (!take_line(text, left, &line) || !is_banner(line)) return 13;
    do {
        if (!take_line(text, left, &line)) return 14;
        if (line.len <= 1024 && line.len > 0 && line.at[0] == '%') {
            c.faulty = false;
            c.count = 0;
        } else {
            c = content_of(line);
        }
    } while (!c.faulty && c.count == 0);
    if (c.faulty || c.count != 3 || c.number[0] != c.number[1]) return 14;
    *n = c.number[0];
    *m = c.number[2];
    return *n > most.vertices ? 1 : *m > most.edges ? 3 : *m > most.room ? 5 : 0;
}

/* Reads a text into columns with room for most.edges edges, which a refusal may leave changed. */
static uint32_t read_table(const uint8_t *text, size_t left, struct limits most, uint32_t *sources, uint32_t *targets, size_t *n, size_t *m) {
    struct line line;
    size_t e = 0;
    uint32_t no = read_head(&text, &left, most, n, m);
    if (no) return no;
    while (take_line(&text, &left, &line)) {
        struct content c = content_of(line);
        if (!c.faulty && c.count == 0) continue;
        if (c.faulty || c.count != 2 || e == *m) return 15;
        for (size_t i = 0; i < 2; i++) {
            if (c.number[i] < 1 || c.number[i] > *n) return 15;
        }
        sources[e] = c.number[0] - 1;
        targets[e] = c.number[1] - 1;
        e++;
    }
    return e < *m ? 15 : 0;
}

uint32_t plain_read_text(
    const uint8_t *text, size_t text_len, uint32_t *sources, size_t sources_len, uint32_t *targets, size_t targets_len, size_t *n, size_t *edges) {
    static uint32_t from[MOST_M], to[MOST_M];
    size_t vertices, m;
    struct limits most = {65536, 262144, sources_len < targets_len ? sources_len : targets_len};
    uint32_t no = read_table(text, text_len, most, from, to, &vertices, &m);
    if (no) return no;
    for (size_t e = 0; e < m; e++) {
        sources[e] = from[e];
        targets[e] = to[e];
    }
    *n = vertices;
    *edges = m;
    return 0;
}

uint32_t plain_write_labels(const uint32_t *label, size_t label_len, uint8_t *out, size_t out_len, size_t *bytes) {
    static char file[100 + 12 * MOST_N];
    if (label_len > 65536) return 1;
    size_t len = (size_t)sprintf(file, "%%%%MatrixMarket matrix array integer general\n%lu 1\n", (unsigned long)label_len);
    for (size_t v = 0; v < label_len; v++) len += (size_t)sprintf(file + len, "%lu\n", (unsigned long)label[v] + 1);
    if (len > out_len) return 12;
    for (size_t i = 0; i < len; i++) out[i] = (uint8_t)file[i];
    *bytes = len;
    return 0;
}

int64_t plain_label_text(const uint8_t *text, size_t text_len, uint8_t *out, size_t out_len) {
    static uint32_t from[4096], to[4096], label[512];
    static const uint8_t no_kinds[4096];
    size_t n, m, bytes;
    uint32_t no = read_table(text, text_len, (struct limits){512, 4096, 4096}, from, to, &n, &m);
    if (no) return -(int64_t)no;
    struct graph g = {n, m, from, to, no_kinds, 255};
    ways_for(n)->labels(&g, label);
    no = plain_write_labels(label, n, out, out_len, &bytes);
    return no ? -(int64_t)no : (int64_t)bytes;
}

#include "texts.h"
#include "tables.h"
#include <stdio.h>
#include <stdlib.h>
#include <string.h>

struct text text;

void begin_text(void) {
    text.len = 0;
}

void put_bytes(uint8_t byte, size_t times) {
    if (times > MOST_BYTES - text.len) _Exit(2);
    memset(text.bytes + text.len, byte, times);
    text.len += times;
}

void put_byte(uint8_t byte) {
    put_bytes(byte, 1);
}

void put(const char *string) {
    while (*string) put_byte((uint8_t)*string++);
}

void put_number(size_t number) {
    char digits[24];
    snprintf(digits, sizeof digits, "%lu", (unsigned long)number);
    put(digits);
}

void put_line(size_t i, size_t j) {
    put_number(i);
    put(" ");
    put_number(j);
    put("\n");
}

static const char banner[] = "%%MatrixMarket matrix coordinate pattern general\n";

void spell_table(size_t comments) {
    begin_text();
    put(banner);
    for (; comments > 0; comments--) {
        put_bytes('%', 1024);
        put("\n");
    }
    put_number(table.n);
    put(" ");
    put_line(table.n, table.m);
    for (size_t e = 0; e < table.m; e++) put_line(table.sources[e] + 1, table.targets[e] + 1);
}

/* A number with spaces before it and leading zeros, of 9 digits at most. */
static void put_oddly(size_t number, size_t least_spaces) {
    char digits[24];
    put_bytes(' ', least_spaces + (below(4) ? 0 : below(4)));
    size_t len = (size_t)snprintf(digits, sizeof digits, "%lu", (unsigned long)number);
    put_bytes('0', len < 9 && below(3) == 0 ? below(10 - len) : 0);
    put(digits);
}

static void end_oddly(void) {
    put_bytes(' ', below(4) ? 0 : below(5));
    put("\n");
}

/* Lines that are passed over: blank ones, and where they are allowed comments, of any bytes but LF. */
static void put_passed_over(bool comments) {
    while (below(3) == 0) {
        if (comments && below(2)) {
            put("%");
            for (size_t i = below(12); i > 0; i--) put_byte((uint8_t)(11 + below(255)));
            put("\n");
        } else {
            end_oddly();
        }
    }
}

void spell_table_oddly(void) {
    begin_text();
    put(banner);
    put_passed_over(true);
    put_oddly(table.n, 0);
    put_oddly(table.n, 1);
    put_oddly(table.m, 1);
    end_oddly();
    for (size_t e = 0; e < table.m; e++) {
        put_passed_over(false);
        put_oddly(table.sources[e] + 1, 0);
        put_oddly(table.targets[e] + 1, 1);
        end_oddly();
    }
    put_passed_over(false);
    if (below(2)) text.len--;
}

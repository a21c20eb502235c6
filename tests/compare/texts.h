/* The text that the tests of the reader and of the entry give. */
#ifndef TEXTS_H
#define TEXTS_H

#include <stddef.h>
#include <stdint.h>

enum { MOST_BYTES = 1 << 23 };

struct text {
    size_t len;
    uint8_t bytes[MOST_BYTES];
};

extern struct text text;

/* An empty text; then what is put at its end. */
void begin_text(void);
void put(const char *string);
void put_byte(uint8_t byte);
void put_bytes(uint8_t byte, size_t times);
void put_number(size_t number);
void put_line(size_t i, size_t j);

/* The current table's text: in the shortest spelling but with so many long comments, or in a drawn one. */
void spell_table(size_t comments);
void spell_table_oddly(void);

#endif

/* Tests of the functions that are given a text: the reader and the entry on bytes. */
#ifndef ON_TEXTS_H
#define ON_TEXTS_H

#include "call.h"

void odd_spellings(enum function f);
void bytes_changed(enum function f);
void long_lines(enum function f);
void words_changed(enum function f);
void size_lines(enum function f);
void every_room(enum function f);
void largest_texts(enum function f);

#endif

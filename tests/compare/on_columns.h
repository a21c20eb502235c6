/* Tests of the functions that get a column of labels alone. */
#ifndef ON_COLUMNS_H
#define ON_COLUMNS_H

#include "call.h"

void all_small_columns(enum function f);
void drawn_columns(enum function f);
void largest_columns(enum function f);

#endif

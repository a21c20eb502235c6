/* Makes a call on the library and on the plain implementation and compares the results and every lent byte. */
#ifndef COMPARE_H
#define COMPARE_H

#include "call.h"

/* The library is called at the low and at the high place; where much is lent, at one of them. After a difference a test makes no more calls. */
void compare_once(const struct call *c);

/* The same, until a test has its calls compared in another way. */
void compare(const struct call *c);
void compare_by(void (*way)(const struct call *c));

/* The result of the last call, and what it left in a slice. */
int64_t result(void);
const void *left_in(enum slice s);

/* Counts as a call: two things that have to be the same. */
void agree(const char *what, const void *is, const void *want, size_t bytes);

/* A failure that is no difference of one call. */
void fail(const char *what);

/* For each test: begins it; then the number of calls compared, and whether all agreed. */
void begin_calls(void);
unsigned long calls_made(void);
bool all_agreed(void);

/* Over all tests so far: bit k is 1 if the function gave the number k, or the checker said that check k failed (0: none). */
uint32_t numbers_given(enum function f);
uint32_t checks_failed(void);
const char *name_of(enum function f);

/* Says what was called last, so that it can be called again. */
void say_call(void);

#endif

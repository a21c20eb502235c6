/*
 * A course of the decomposition with pivot kind 1, step by step as document 01 has it. What the document leaves open is as the library has it: V without F and B
 * goes on in place and does not wait, a part is trimmed before method 0 takes pivots in it, and new parts wait in the order of their lowest vertices.
 */
#ifndef COURSE_H
#define COURSE_H

#include "definitions.h"

enum { MOST_COURSE = 200 };

/* The draws of a course on at most MOST_COURSE vertices that begins with a state. */
size_t course_draws(const struct graph *g, uint32_t method, uint32_t order, uint32_t state);

#endif

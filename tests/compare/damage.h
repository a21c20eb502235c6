/* Calls that are refused, or only just not: each way to spoil a call alone, and every two of them together; one way for each refusal, in all choices of them. */
#ifndef DAMAGE_H
#define DAMAGE_H

#include "call.h"

/* The calls of a function on a few tables, each damaged in every way and in every two ways. */
void damaged_calls(enum function f);

/* Calls for which a choice of refusals applies, every choice: so each refusal beside the next one in their order. */
void calls_refused_in_every_way(enum function f);

/* Calls at the greatest number of vertices and of edges, and one past it, sound and damaged. */
void calls_past_the_limits(enum function f);

#endif

/* For each function on a table: calls of it on the current table, all there are where the table is very small, else drawn ones. */
#ifndef ON_TABLES_H
#define ON_TABLES_H

#include <stddef.h>
#include <stdint.h>

void ask_check_table(void);
void ask_search(void);
void ask_trim(void);
void ask_decompose(void);
void ask_label(void);
void ask_path(void);
void ask_write_certificate(void);
void ask_check_certificate(void);

/* A list of pivots: empty, all vertices falling, the highest alone, drawn, or drawn with others than vertices; gives its length, at most n + 2. */
size_t draw_list(uint32_t *list);

/* A call of label that may take little of the stack. */
void ask_label_frugal(void);

/* The library's label against its decompose by both methods, three pivot kinds and both orders; the plain implementation has no part in it. */
void ask_label_as_decompose(void);

/* The two ways of the definitions, against each other. */
void ask_definitions(void);

/* All of these calls but those of check_table, on the current table and on its counted edges alone, which are all of kind 0 and asked about with mask 255. */
void ask_counted_alone(void);

/* The same with the table's mask 255, so that only kinds differ, and with the table's mask 0, so that there is no edge. */
void ask_full_mask(void);
void ask_empty_mask(void);

#endif

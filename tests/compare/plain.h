/*
 * The plain implementation: for each public function one of the same type, written from document 01 and request 7 alone. plain_decompose makes no
 * draws: who compares judges those of pivot kind 1, on small tables by a course of its own (course.h).
 */
#ifndef PLAIN_H
#define PLAIN_H

#include "tinoweala.h"

__typeof__(tinoweala_check_table) plain_check_table;
__typeof__(tinoweala_search) plain_search;
__typeof__(tinoweala_trim) plain_trim;
__typeof__(tinoweala_decompose) plain_decompose;
__typeof__(tinoweala_label) plain_label;
__typeof__(tinoweala_path) plain_path;
__typeof__(tinoweala_write_certificate) plain_write_certificate;
__typeof__(tinoweala_check_certificate) plain_check_certificate;
__typeof__(tinoweala_summary) plain_summary;
__typeof__(tinoweala_read_text) plain_read_text;
__typeof__(tinoweala_write_labels) plain_write_labels;
__typeof__(tinoweala_label_text) plain_label_text;

/* The chooser's next state. */
uint32_t plain_next(uint32_t state);

#endif

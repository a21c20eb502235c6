// The strong components of igraph.
#include "plain.hpp"
#include <igraph/igraph.h>

void igraph_labels(const Table &table, uint32_t *label) {
    igraph_vector_int_t ends, component;
    igraph_t graph;
    igraph_vector_int_init(&ends, igraph_integer_t(2 * table.m()));
    igraph_vector_int_init(&component, 0);
    igraph_integer_t count = 0;
    table.by_kinds([&](auto counts) {
        for (size_t e = 0; e < table.m(); e++) {
            if (!counts(e)) continue;
            VECTOR(ends)[count++] = table.sources[e];
            VECTOR(ends)[count++] = table.targets[e];
        }
    });
    igraph_vector_int_resize(&ends, count);
    igraph_create(&graph, &ends, igraph_integer_t(table.n), IGRAPH_DIRECTED);
    igraph_connected_components(&graph, &component, nullptr, nullptr, IGRAPH_STRONG);
    name_by_smallest(table.n, [&](uint32_t v) { return VECTOR(component)[v]; }, label);
    igraph_destroy(&graph);
    igraph_vector_int_destroy(&component);
    igraph_vector_int_destroy(&ends);
}

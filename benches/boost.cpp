// Boost's strong components of an adjacency list.
#include "plain.hpp"
#include <boost/graph/adjacency_list.hpp>
#include <boost/graph/strong_components.hpp>

void boost_labels(const Table &table, uint32_t *label) {
    boost::adjacency_list<boost::vecS, boost::vecS, boost::directedS> graph(table.n);
    table.by_kinds([&](auto counts) {
        for (size_t e = 0; e < table.m(); e++)
            if (counts(e)) add_edge(table.sources[e], table.targets[e], graph);
    });
    std::vector<uint32_t> component(table.n);
    boost::strong_components(graph, boost::make_iterator_property_map(component.begin(), get(boost::vertex_index, graph)));
    name_by_smallest(table.n, [&](uint32_t v) { return component[v]; }, label);
}

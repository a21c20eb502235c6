// What the library is measured against: plain code by hand, without proofs, and the libraries that Debian has.
#pragma once
#include "tables.hpp"
#include <cstdint>
#include <string>
#include <vector>

// A vertex that Tarjan's search has entered and not left: the edges it has still to look at, and the lowest number seen.
struct Frame {
    uint32_t vertex, next, end, low;
};

// Memory that is lent from call to call, so that no contender pays for fresh pages.
struct Room {
    std::vector<uint32_t> numbers;
    std::vector<Frame> frames;
    explicit Room(const Table &table) : numbers(12 * size_t(table.n) + 2 * table.m() + 16), frames(table.n + 1) {}
};

// The index of a column: the ends of the edges that count and begin at v stand at first[v] .. first[v + 1] - 1 of ends. It uses n + m + 2 numbers.
struct Index {
    uint32_t *first, *ends;
};
Index build_index(const Table &table, const std::vector<uint32_t> &from, const std::vector<uint32_t> &to, uint32_t *room);

struct Reached {
    size_t vertices, edges;
    bool operator==(const Reached &other) const { return vertices == other.vertices && edges == other.edges; }
};

void plain_tarjan(const Table &table, Room &room, uint32_t *label);
Reached plain_search(const Table &table, Room &room, const std::vector<uint64_t> &starts, const std::vector<uint64_t> &permitted, std::vector<uint64_t> &reached);
size_t plain_trim(const Table &table, Room &room, const std::vector<uint64_t> &part, std::vector<uint64_t> &left);
// The distances from u, n + 1 where there is no path.
void plain_distances(const Table &table, Room &room, uint32_t u, uint32_t *distance);
// The shortest path in edge numbers: its length, or n where there is none.
size_t plain_path(const Table &table, Room &room, uint32_t u, uint32_t v, uint32_t *path);
// The number of edges, or SIZE_MAX where the text is faulty.
size_t plain_read(const std::string &text, uint32_t *sources, uint32_t *targets);
void plain_summary(const std::vector<uint32_t> &label, Room &room, uint32_t *summary);

// The graph's construction is part of these.
void boost_labels(const Table &table, uint32_t *label);
void igraph_labels(const Table &table, uint32_t *label);

// Components numbered in any way become labels: the smallest vertex of each.
template <class Component>
void name_by_smallest(uint32_t n, const Component &component, uint32_t *label) {
    std::vector<uint32_t> smallest(n, n);
    for (uint32_t v = 0; v < n; v++) {
        uint32_t &s = smallest[size_t(component(v))];
        if (s == n) s = v;
        label[v] = s;
    }
}

// The families of tables that are measured, each made for a number of vertices.
#pragma once
#include <cstddef>
#include <cstdint>
#include <string>
#include <vector>

struct Table {
    uint32_t n;
    std::vector<uint32_t> sources, targets;
    // empty where the table has none, and then every edge counts
    std::vector<uint8_t> kinds;
    uint8_t mask = 255;

    explicit Table(uint32_t vertices) : n(vertices) {}
    size_t m() const { return sources.size(); }
    void edge(uint32_t source, uint32_t target) {
        sources.push_back(source);
        targets.push_back(target);
    }
    // Acts with a test of edges, 1 where an edge counts and 0 where not; for a table without kinds it is constant and costs nothing.
    template <class Act>
    auto by_kinds(Act act) const {
        return kinds.empty() ? act([](size_t) { return 1u; }) : act([this](size_t e) { return uint32_t(mask) >> kinds[e] & 1; });
    }
};

struct Family {
    const char *name;
    Table (*make)(uint32_t n);
    // contenders whose time is quadratic on it
    std::vector<std::string> quadratic = {};
};

extern const std::vector<Family> families;

// The vertices in an order that no family's table has.
std::vector<uint32_t> any_order(uint32_t n);

// The table as a Matrix Market text.
std::string text_of(const Table &table);

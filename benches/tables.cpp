#include "tables.hpp"
#include <cmath>
#include <numeric>
#include <utility>

namespace {

// Xorshift: the same tables on every machine.
class Random {
    uint64_t state;

public:
    explicit Random(uint64_t seed = 88172645463325252u) : state(seed) {}
    uint32_t below(uint32_t k) {
        state ^= state << 13, state ^= state >> 7, state ^= state << 17;
        return uint32_t((state >> 11) % k);
    }
    double unit() { return below(1u << 24) / double(1u << 24); }
};

std::vector<uint32_t> shuffled(uint32_t n, Random &random) {
    std::vector<uint32_t> order(n);
    std::iota(order.begin(), order.end(), 0u);
    for (uint32_t i = n; i > 1; i--) std::swap(order[i - 1], order[random.below(i)]);
    return order;
}

Table scattered(uint32_t n, size_t m) {
    Table table(n);
    Random random;
    while (table.m() < m) {
        uint32_t source = random.below(n);
        table.edge(source, random.below(n));
    }
    return table;
}

Table random_n(uint32_t n) { return scattered(n, n); }
Table random_4n(uint32_t n) { return scattered(n, 4 * size_t(n)); }

// The same edges with drawn kinds, of which those of the mask count.
Table random_kinds(uint32_t n, uint8_t mask) {
    Table table = random_4n(n);
    Random random(362436069362436069u);
    table.mask = mask;
    while (table.kinds.size() < table.m()) table.kinds.push_back(uint8_t(random.below(8)));
    return table;
}

Table all_kinds(uint32_t n) { return random_kinds(n, 255); }
Table half_of_kinds(uint32_t n) { return random_kinds(n, 15); }
Table none_of_kinds(uint32_t n) { return random_kinds(n, 0); }

Table giant_ring(uint32_t n) {
    Table table(n);
    for (uint32_t v = 0; v < n; v++) table.edge(v, (v + 1) % n);
    return table;
}

Table chain(uint32_t n) {
    Table table(n);
    for (uint32_t v = 0; v + 1 < n; v++) table.edge(v, v + 1);
    return table;
}

// A chain whose vertices and edges come in any order.
Table shuffled_chain(uint32_t n) {
    Table table(n);
    Random random;
    const auto order = shuffled(n, random), places = shuffled(n - 1, random);
    for (uint32_t i : places) table.edge(order[i], order[i + 1]);
    return table;
}

// Layers of 256; each vertex has four edges to the next layer.
Table layered(uint32_t n) {
    Table table(n);
    Random random;
    const uint32_t width = 256;
    for (uint32_t v = 0; v + width < n; v++)
        for (int i = 0; i < 4; i++) table.edge(v, (v / width + 1) * width + random.below(width));
    return table;
}

Table small_rings(uint32_t n) {
    Table table(n);
    for (uint32_t v = 0; v < n; v++) table.edge(v, v % 4 == 3 ? v - 3 : v + 1);
    return table;
}

// Rings of two from vertex first on, each with an edge to the next.
Table rings_from(uint32_t first, uint32_t n) {
    Table table(n);
    for (uint32_t v = first; v + 1 < n; v += 2) {
        table.edge(v, v + 1);
        table.edge(v + 1, v);
        if (v + 2 < n) table.edge(v + 1, v + 2);
    }
    return table;
}

Table chain_of_rings(uint32_t n) { return rings_from(0, n); }

// One edge more, from the chain's first ring to its last.
Table ends_joined(uint32_t n) {
    Table table = rings_from(0, n);
    table.edge(0, n - 1);
    return table;
}

// Vertex 0 refers to every ring of the chain behind it.
Table cover_sheet(uint32_t n) {
    Table table = rings_from(1, n);
    for (uint32_t v = 1; v + 1 < n; v += 2) table.edge(0, v);
    return table;
}

// Four edges a vertex; how many enter a vertex falls as a power of its place in an order of any kind.
Table power_law(uint32_t n) {
    Table table(n);
    Random random;
    const auto order = shuffled(n, random);
    while (table.m() < 4 * size_t(n)) {
        uint32_t source = random.below(n);
        table.edge(source, order[uint32_t(n * std::pow(random.unit(), 3))]);
    }
    return table;
}

}  // namespace

// Who takes one nested part for each ring of the chain.
const std::vector<std::string> method_0 = {"method 0 kind 0"}, both = {"method 0 kind 0", "method 1 kind 0"};

const std::vector<Family> families = {
    {"random m = n", random_n},
    {"random m = 4n", random_4n},
    {"8 of 8 kinds", all_kinds},
    {"4 of 8 kinds", half_of_kinds},
    {"0 of 8 kinds", none_of_kinds},
    {"power law", power_law},
    {"layered", layered},
    {"chain", chain},
    {"shuffled chain", shuffled_chain},
    {"small rings", small_rings},
    {"giant ring", giant_ring},
    {"chain of 2-rings", chain_of_rings, method_0},
    {"ends joined", ends_joined, both},
    {"cover sheet", cover_sheet, both},
};

std::vector<uint32_t> any_order(uint32_t n) {
    Random random(2463534242u);
    return shuffled(n, random);
}

std::string text_of(const Table &table) {
    const std::string n = std::to_string(table.n);
    std::string text = "%%MatrixMarket matrix coordinate pattern general\n" + n + " " + n + " " + std::to_string(table.m()) + "\n";
    for (size_t e = 0; e < table.m(); e++)
        text += std::to_string(table.sources[e] + 1) + " " + std::to_string(table.targets[e] + 1) + "\n";
    return text;
}

// Plain code for the other entry points.
#include "plain.hpp"
#include <algorithm>
#include <cstdlib>
#include <cstring>

static bool has(const std::vector<uint64_t> &set, uint32_t v) { return set[v / 64] >> (v % 64) & 1; }
static void add(std::vector<uint64_t> &set, uint32_t v) { set[v / 64] |= uint64_t(1) << (v % 64); }

Reached plain_search(const Table &table, Room &room, const std::vector<uint64_t> &starts, const std::vector<uint64_t> &permitted, std::vector<uint64_t> &reached) {
    const auto [first, ends] = build_index(table, table.sources, table.targets, room.numbers.data());
    uint32_t *queue = ends + table.m(), size = 0;
    size_t edges = 0;
    std::fill(reached.begin(), reached.end(), 0);
    const auto visit = [&](uint32_t v) {
        if (!has(permitted, v) || has(reached, v)) return;
        add(reached, v);
        queue[size++] = v;
    };
    for (uint32_t v = 0; v < table.n; v++)
        if (has(starts, v)) visit(v);
    for (uint32_t h = 0; h < size; h++) {
        const uint32_t u = queue[h];
        edges += first[u + 1] - first[u];
        for (uint32_t i = first[u]; i < first[u + 1]; i++) visit(ends[i]);
    }
    return {size, edges};
}

size_t plain_trim(const Table &table, Room &room, const std::vector<uint64_t> &part, std::vector<uint64_t> &left) {
    const uint32_t n = table.n;
    const size_t m = table.m();
    const Index out = build_index(table, table.sources, table.targets, room.numbers.data());
    const Index in = build_index(table, table.targets, table.sources, out.ends + m);
    uint32_t *leaving = in.ends + m, *entering = leaving + n, *queue = entering + n, size = 0;
    size_t stayed = 0;
    std::fill_n(leaving, 2 * size_t(n), 0u);
    table.by_kinds([&](auto counts) {
        for (size_t e = 0; e < m; e++) {
            const uint32_t source = table.sources[e], target = table.targets[e];
            if (has(part, source) && has(part, target)) leaving[source] += counts(e), entering[target] += counts(e);
        }
    });
    left = part;
    const auto examine = [&](uint32_t v) {
        if (!has(left, v) || (leaving[v] && entering[v])) return;
        left[v / 64] &= ~(uint64_t(1) << (v % 64));
        queue[size++] = v;
    };
    for (uint32_t v = 0; v < n; v++) examine(v);
    for (uint32_t h = 0; h < size; h++) {
        const uint32_t u = queue[h];
        for (uint32_t i = out.first[u]; i < out.first[u + 1]; i++)
            if (has(left, out.ends[i])) entering[out.ends[i]]--, examine(out.ends[i]);
        for (uint32_t i = in.first[u]; i < in.first[u + 1]; i++)
            if (has(left, in.ends[i])) leaving[in.ends[i]]--, examine(in.ends[i]);
    }
    for (uint64_t word : left) stayed += size_t(__builtin_popcountll(word));
    return stayed;
}

void plain_distances(const Table &table, Room &room, uint32_t u, uint32_t *distance) {
    const auto [first, ends] = build_index(table, table.sources, table.targets, room.numbers.data());
    uint32_t *queue = ends + table.m(), size = 0;
    std::fill_n(distance, table.n, table.n + 1);
    distance[u] = 0;
    queue[size++] = u;
    for (uint32_t h = 0; h < size; h++)
        for (uint32_t x = queue[h], i = first[x]; i < first[x + 1]; i++)
            if (distance[ends[i]] > table.n) {
                distance[ends[i]] = distance[x] + 1;
                queue[size++] = ends[i];
            }
}

size_t plain_path(const Table &table, Room &room, uint32_t u, uint32_t v, uint32_t *path) {
    uint32_t *distance = room.numbers.data() + 2 * size_t(table.n) + 1 + table.m(), *entered = distance + table.n;
    plain_distances(table, room, u, distance);
    if (distance[v] > table.n) return table.n;
    table.by_kinds([&](auto counts) {
        for (size_t e = table.m(); e-- > 0;)
            if (counts(e) & (distance[table.targets[e]] == distance[table.sources[e]] + 1)) entered[table.targets[e]] = uint32_t(e);
    });
    const size_t length = distance[v];
    for (size_t i = length; i-- > 0;) {
        path[i] = entered[v];
        v = table.sources[path[i]];
    }
    return length;
}

size_t plain_read(const std::string &text, uint32_t *sources, uint32_t *targets) {
    static const char banner[] = "%%MatrixMarket matrix coordinate pattern general\n";
    if (text.compare(0, sizeof banner - 1, banner) != 0) return SIZE_MAX;
    const char *at = text.c_str() + sizeof banner - 1;
    while (*at == '%') {
        at = std::strchr(at, '\n');
        if (!at++) return SIZE_MAX;
    }
    const auto number = [&](size_t most) {
        char *end;
        const size_t x = std::strtoul(at, &end, 10);
        const bool fine = end != at && x <= most;
        at = end;
        return fine ? x : SIZE_MAX;
    };
    const size_t rows = number(65536), columns = number(65536), entries = number(262144);
    if (rows != columns || rows == SIZE_MAX || entries == SIZE_MAX) return SIZE_MAX;
    for (size_t e = 0; e < entries; e++) {
        const size_t i = number(rows), j = number(rows);
        if (i - 1 >= rows || j - 1 >= rows) return SIZE_MAX;
        sources[e] = uint32_t(i - 1), targets[e] = uint32_t(j - 1);
    }
    return entries;
}

void plain_summary(const std::vector<uint32_t> &label, Room &room, uint32_t *summary) {
    uint32_t *count = room.numbers.data();
    std::fill_n(count, label.size(), 0u);
    std::fill_n(summary, 3, 0u);
    for (uint32_t v = 0; v < label.size(); v++) {
        count[label[v]]++;
        summary[0] += label[v] == v;
    }
    for (size_t l = 0; l < label.size(); l++) {
        summary[1] += count[l] >= 2;
        summary[2] = std::max(summary[2], count[l]);
    }
}

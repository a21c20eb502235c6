// Times the library and what it is measured against, table by table, in turn in one process, and compares what they give. Writes a CSV of nanoseconds.
// The sizes may be given. With 'families': writes their names. With 'once FAMILY N': one run of each contender that is counted, for callgrind.
#include "../include/tinoweala.h"
#include "plain.hpp"
#include <algorithm>
#include <cstdio>
#include <cstdlib>
#include <cstring>
#include <ctime>
#include <functional>
#include <memory>
#include <utility>
#if __has_include(<valgrind/callgrind.h>)
#include <valgrind/callgrind.h>
#else
#define CALLGRIND_START_INSTRUMENTATION
#define CALLGRIND_STOP_INSTRUMENTATION
#define CALLGRIND_DUMP_STATS_AT(name)
#endif

namespace {

[[noreturn]] void fail(const std::string &what) {
    std::fprintf(stderr, "benches: %s\n", what.c_str());
    std::exit(1);
}

// Processor time, so that what else runs on the machine disturbs little.
double now() {
    timespec t;
    clock_gettime(CLOCK_THREAD_CPUTIME_ID, &t);
    return double(t.tv_sec) * 1e9 + double(t.tv_nsec);
}

// Whether a run's result is right is asked after it, outside its time.
struct Contender {
    std::string name;
    std::function<void()> run;
    std::function<bool()> right;
};

using Contenders = std::vector<Contender>;

// Everything a call of the library is lent, for one table.
struct Lent {
    const Table &table;
    Room room;
    std::vector<uint8_t> kinds;
    std::vector<uint64_t> words, starts, all, set;
    std::vector<tinoweala_part> waiting;
    std::vector<uint32_t> list, right, label, rank, in_edge, in_distance, out_edge, out_distance, path, edges, summary;
    std::string text;
    uint32_t far = 0, verdict = 9;

    explicit Lent(const Table &t)
        : table(t), room(t), kinds(t.kinds), words(tinoweala_words(t.n)), starts(tinoweala_set_words(t.n), 1), all(starts.size(), ~uint64_t(0)), set(starts.size()), waiting(t.n), list(any_order(t.n)), right(t.n),
          label(t.n), rank(t.n), in_edge(t.n), in_distance(t.n), out_edge(t.n), out_distance(t.n), path(t.n), edges(2 * t.m()), summary(3) {
        kinds.resize(t.m());
        if (t.n % 64) all.back() = (uint64_t(1) << t.n % 64) - 1;
        plain_tarjan(table, room, right.data());
        plain_distances(table, room, 0, label.data());
        for (uint32_t v = 0; v < t.n; v++)
            if (label[v] < t.n && label[v] > label[far]) far = v;
        if (write_certificate()) fail("the certificate is refused");
    }
    // A function of the library on the table, and on what else it is given.
    template <class Function, class... Given>
    uint32_t call(Function function, Given... given) {
        return function(table.n, table.sources.data(), table.m(), table.targets.data(), table.m(), kinds.data(), kinds.size(), table.mask, given...);
    }
    uint32_t linear() { return call(tinoweala_label, label.data(), table.n, room.numbers.data(), room.numbers.size(), words.data(), words.size()); }
    uint32_t decompose(uint32_t method, uint32_t kind) {
        tinoweala_chooser chooser = {kind, 1};
        size_t draws;
        return call(
            tinoweala_decompose, method, TINOWEALA_NEWEST_FIRST, &chooser, list.data(), table.n, waiting.data(), table.n, label.data(), table.n, room.numbers.data(), room.numbers.size(),
            words.data(), words.size(), &draws);
    }
    uint32_t write_certificate() {
        const size_t n = table.n;
        return call(
            tinoweala_write_certificate, right.data(), n, rank.data(), n, in_edge.data(), n, in_distance.data(), n, out_edge.data(), n, out_distance.data(), n, room.numbers.data(),
            room.numbers.size(), words.data(), words.size());
    }
    void check_certificate() {
        const size_t n = table.n;
        size_t place;
        if (call(
                tinoweala_check_certificate, right.data(), n, rank.data(), n, in_edge.data(), n, in_distance.data(), n, out_edge.data(), n, out_distance.data(), n, &verdict, &place))
            fail("the checker refuses");
    }
    bool accepted() {
        verdict = 9;
        check_certificate();
        return verdict == 0;
    }
    // Whether the checker accepted. The in-edges are emptied: the writer, which runs next, has to write them.
    bool spoil() {
        std::fill(in_edge.begin(), in_edge.end(), 0);
        return std::exchange(verdict, 9) == 0;
    }
    Reached search() {
        Reached found = {0, 0};
        const size_t size = set.size();
        if (call(
                tinoweala_search, starts.data(), size, all.data(), size, false, set.data(), size, room.numbers.data(), room.numbers.size(), words.data(), words.size(), &found.vertices,
                &found.edges))
            fail("the search refuses");
        return found;
    }
    size_t trim() {
        size_t vertices = 0;
        const size_t size = set.size();
        if (call(tinoweala_trim, all.data(), size, set.data(), size, room.numbers.data(), room.numbers.size(), words.data(), words.size(), &vertices)) fail("trimming refuses");
        return vertices;
    }
    size_t shortest() {
        size_t length = 0;
        if (call(tinoweala_path, 0, far, path.data(), path.size(), room.numbers.data(), room.numbers.size(), words.data(), words.size(), &length)) fail("the path is refused");
        return length;
    }
    void sum() {
        if (tinoweala_summary(table.n, right.data(), table.n, &summary[0], &summary[1], &summary[2])) fail("the summary refuses");
    }
    size_t read() {
        size_t n = 0, count = 0;
        const auto bytes = reinterpret_cast<const uint8_t *>(text.data());
        if (tinoweala_read_text(bytes, text.size(), edges.data(), table.m(), edges.data() + table.m(), table.m(), &n, &count)) fail("the reader refuses");
        return count;
    }
};

// A contender's result stands in a column, which is emptied after it is compared: who writes nothing is noticed.
template <class Number>
std::function<bool()> same(std::vector<Number> &column, const std::vector<Number> &right) {
    return [&column, right] {
        const bool same = column == right;
        std::fill(column.begin(), column.end(), 0);
        return same;
    };
}

Contenders labels(Lent &lent) {
    const auto right = same(lent.label, lent.right);
    Contenders contenders = {
        {"tarjan", [&lent] { plain_tarjan(lent.table, lent.room, lent.label.data()); }, right},
        {"linear", [&lent] { lent.linear(); }, right}};
    for (uint32_t method = 0; method < 2; method++)
        for (uint32_t kind = 0; kind < 3; kind++)
            contenders.push_back({"method " + std::to_string(method) + " kind " + std::to_string(kind), [=, &lent] { lent.decompose(method, kind); }, right});
#ifdef WITH_boost
    contenders.push_back({"boost", [&lent] { boost_labels(lent.table, lent.label.data()); }, right});
#endif
#ifdef WITH_igraph
    contenders.push_back({"igraph", [&lent] { igraph_labels(lent.table, lent.label.data()); }, right});
#endif
    contenders.push_back({"checker", [&lent] { lent.check_certificate(); }, [&lent] { return lent.spoil(); }});
    contenders.push_back({"certificate", [&lent] { lent.write_certificate(); }, [&lent] { return lent.accepted(); }});
    return contenders;
}

// Plain code and the library: a value each, and a column each; those of plain code are the right ones.
template <class Value, class Number>
Contenders pair(std::vector<Number> &column, std::function<Value()> plain, std::function<Value()> library) {
    const auto value = std::make_shared<Value>();
    std::fill(column.begin(), column.end(), 0);
    const Value right = plain();
    const auto same_column = same(column, column);
    std::fill(column.begin(), column.end(), 0);
    const auto judge = [=] { return same_column() && *value == right; };
    return {{"plain", [=] { *value = plain(); }, judge}, {"library", [=] { *value = library(); }, judge}};
}

Contenders searching(Lent &lent) {
    return pair<Reached>(lent.set, [&lent] { return plain_search(lent.table, lent.room, lent.starts, lent.all, lent.set); }, [&lent] { return lent.search(); });
}

Contenders trimming(Lent &lent) {
    return pair<size_t>(lent.set, [&lent] { return plain_trim(lent.table, lent.room, lent.all, lent.set); }, [&lent] { return lent.trim(); });
}

Contenders finding_path(Lent &lent) {
    return pair<size_t>(lent.path, [&lent] { return plain_path(lent.table, lent.room, 0, lent.far, lent.path.data()); }, [&lent] { return lent.shortest(); });
}

Contenders summing(Lent &lent) {
    return pair<bool>(lent.summary, [&lent] { return plain_summary(lent.right, lent.room, lent.summary.data()), true; }, [&lent] { return lent.sum(), true; });
}

Contenders reading(Lent &lent) {
    lent.text = text_of(lent.table);
    return pair<size_t>(lent.edges, [&lent] { return plain_read(lent.text, lent.edges.data(), lent.edges.data() + lent.table.m()); }, [&lent] { return lent.read(); });
}

struct Task {
    const char *name;
    Contenders (*contenders)(Lent &);
};
const std::vector<Task> tasks = {{"labels", labels}, {"search", searching}, {"trim", trimming}, {"path", finding_path}, {"summary", summing}, {"reader", reading}};

// A quadratic contender stays away from tables on which it takes many seconds.
bool takes_part(const Family &family, const std::string &contender, uint32_t n) {
    return n <= 16384 || !std::count(family.quadratic.begin(), family.quadratic.end(), contender);
}

// The contenders run in turn, round after round; one that takes over half a second runs once.
void race(const Task &task, const Family &family, Lent &lent) {
    const double enough = 1.5e9, slow = 5e8;
    const size_t fewest = 7, most = 300;
    const Contenders contenders = task.contenders(lent);
    std::vector<std::vector<double>> times(contenders.size());
    double spent = 0;
    for (size_t round = 0; round < fewest || (round < most && spent < enough); round++)
        for (size_t i = 0; i < contenders.size(); i++) {
            const Contender &c = contenders[i];
            if (!takes_part(family, c.name, lent.table.n) || (!times[i].empty() && times[i][0] > slow)) continue;
            const double start = now();
            c.run();
            const double time = now() - start;
            if (!c.right()) fail(c.name + " is wrong: " + task.name + " of " + family.name);
            times[i].push_back(time);
            spent += time;
        }
    for (size_t i = 0; i < contenders.size(); i++) {
        std::vector<double> &t = times[i];
        if (t.empty()) continue;
        std::sort(t.begin(), t.end());
        std::printf("%s,%s,%u,%zu,%zu,%s,%zu,%.0f,%.0f\n", task.name, family.name, lent.table.n, lent.table.m(), lent.text.size(), contenders[i].name.c_str(), t.size(), t[0], t[t.size() / 2]);
        std::fflush(stdout);
    }
}

const Family &family_of(const std::string &name) {
    for (const Family &family : families)
        if (family.name == name) return family;
    fail("no such family");
}

// One run of Tarjan and of the library for each task, under callgrind, which dumps each count by the name of its row. The library is named by its task where it has plain code beside it.
void once(const Family &family, uint32_t n) {
    const Table table = family.make(n);
    Lent lent(table);
    for (const Task &task : tasks)
        for (const Contender &c : task.contenders(lent)) {
            if (c.name == "plain" || c.name == "boost" || c.name == "igraph" || !takes_part(family, c.name, n)) continue;
            const std::string row = std::string(family.name) + "," + std::to_string(n) + "," + std::to_string(table.m()) + "," + (c.name == "library" ? task.name : c.name);
            CALLGRIND_START_INSTRUMENTATION;
            c.run();
            CALLGRIND_STOP_INSTRUMENTATION;
            CALLGRIND_DUMP_STATS_AT(row.c_str());
            if (!c.right()) fail(c.name + " is wrong: " + task.name + " of " + family.name);
        }
}

}  // namespace

int main(int count, char **argument) {
    if (count == 4 && !std::strcmp(argument[1], "once")) {
        once(family_of(argument[2]), uint32_t(std::strtoul(argument[3], nullptr, 10)));
        return 0;
    }
    if (count == 2 && !std::strcmp(argument[1], "families")) {
        for (const Family &family : families) std::puts(family.name);
        return 0;
    }
    std::vector<uint32_t> sizes;
    for (int i = 1; i < count; i++) sizes.push_back(uint32_t(std::strtoul(argument[i], nullptr, 10)));
    if (sizes.empty()) sizes = {4096, 8192, 16384, 32768, 65536};
    std::printf("task,family,n,m,bytes,contender,rounds,least,median\n");
    for (const Family &family : families)
        for (uint32_t n : sizes) {
            const Table table = family.make(n);
            Lent lent(table);
            for (const Task &task : tasks) race(task, family, lent);
        }
}

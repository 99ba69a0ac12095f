// A plain C++ program that does what `tally FILE` does: the yardstick of its speed.
//   g++ -O2 -std=c++17 -o tally_map tally.cpp                      std::map throughout
//   g++ -O2 -std=c++17 -DHASHED -o tally_hashed tally.cpp          std::unordered_map, sorted at the end
//   g++ -O2 -std=c++17 -pthread -DSHARED -o tally_shared tally.cpp the shared table, by the steps and the plan of `tally`: FILE [WORKERS FLOWS BUCKETS];
//                                                                  options: shared_object.h, and
//   -DAHEAD       what 32 pairs need is loaded ahead, as `tally` does
//   -DRECLAIM     a scan between two pairs once 256 nodes are retired besides those that claims may name, as `tally` does
//   -DTWO_CALLS   a find and an insert or a replace for each pair, in place of one update
//   -DTELL        standard error has the milliseconds of each phase, and how many looks and turns were lost
#include <algorithm>
#include <atomic>
#include <chrono>
#include <cinttypes>
#include <cstdint>
#include <cstdio>
#include <cstdlib>
#include <map>
#include <string>
#include <unordered_map>
#include <vector>
#ifdef SHARED
#include "table_seat.h"
#endif

struct FlowKey {
    uint64_t high, low;
    bool operator<(const FlowKey &other) const { return high != other.high ? high < other.high : low < other.low; }
    bool operator==(const FlowKey &other) const { return high == other.high && low == other.low; }
};

struct Sums {
    uint64_t packets, octets, first, last, flags; // times in milliseconds since 1970

    void merge(const Sums &other) {
        packets += other.packets;
        octets += other.octets;
        first = std::min(first, other.first);
        last = std::max(last, other.last);
        flags |= other.flags;
    }
};

struct Mix {
    size_t operator()(const FlowKey &k) const { return (k.high ^ (k.low << 32 | k.low >> 32)) * 0x9E3779B97F4A7C15u >> 32; }
};

using Flow = std::pair<FlowKey, Sums>;

// Tells how long it is since the last phase ended.
static void end_phase([[maybe_unused]] const char *phase) {
#ifdef TELL
    static auto last = std::chrono::steady_clock::now();
    auto now = std::chrono::steady_clock::now();
    if (*phase) fprintf(stderr, "%s %.2f\n", phase, std::chrono::duration<double, std::milli>(now - last).count());
    last = now;
#endif
}

static uint64_t number(const unsigned char *p, int n) {
    uint64_t v = 0;
    for (int i = 0; i < n; i++) v = v << 8 | p[i];
    return v;
}

static std::vector<unsigned char> read_file(const char *name) {
    FILE *file = fopen(name, "rb");
    if (!file) exit(3);
    std::vector<unsigned char> bytes;
    size_t filled = 0;
    for (size_t n = 1; n != 0; filled += n) {
        bytes.resize(filled + (1 << 18));
        n = fread(bytes.data() + filled, 1, 1 << 18, file);
    }
    fclose(file);
    bytes.resize(filled);
    return bytes;
}

// A time of the uptime in milliseconds since 1970, by the clock of a header; 0 where it lies before.
static uint64_t moment(const unsigned char *header, const unsigned char *time) {
    uint64_t made_at = 1000 * number(header + 8, 4) + number(header + 12, 4) / 1000000;
    uint64_t time_since = uint32_t(number(header + 4, 4) - number(time, 4));
    return made_at > time_since ? made_at - time_since : 0;
}

// What came of an engine's flows, and the sequence number that its next datagram has where none is lost.
struct Engine {
    uint32_t next;
    uint64_t flows = 0, lost = 0, resets = 0;
};

using Engines = std::map<std::pair<unsigned, unsigned>, Engine>; // by type and id

static void add_datagram(Engines &engines, const unsigned char *header, uint32_t count) {
    uint32_t sequence = number(header + 16, 4);
    Engine &engine = engines.try_emplace({header[20], header[21]}, Engine{sequence}).first->second;
    uint32_t gap = sequence - engine.next;
    if (gap < 1u << 31) engine.lost += gap;
    else engine.resets++;
    engine.flows += count;
    engine.next = sequence + count;
}

// Hands each record on, and tells how many datagrams there are.
template <class Add> uint64_t decode(const std::vector<unsigned char> &bytes, Engines &engines, const Add &add) {
    uint64_t datagrams = 0;
    for (size_t at = 0; at < bytes.size(); datagrams++) {
        const unsigned char *d = bytes.data() + at;
        size_t left = bytes.size() - at;
        if (left < 24 || number(d, 2) != 5) exit(6);
        unsigned count = number(d + 2, 2);
        if (count == 0 || count > 30 || left - 24 < 48 * count) exit(6);
        add_datagram(engines, d, count);
        for (unsigned i = 0; i < count; i++) {
            const unsigned char *r = d + 24 + 48 * i;
            FlowKey key{number(r, 8), number(r + 32, 4) << 32 | number(r + 38, 2) << 16 | number(r + 12, 2)};
            add(key, Sums{number(r + 16, 4), number(r + 20, 4), moment(d, r + 24), moment(d, r + 28), r[37]});
        }
        at += 24 + 48 * count;
    }
    return datagrams;
}

// What a report tells besides its flows.
struct Totals {
    uint64_t records = 0, datagrams = 0;
    Engines engines;
};

[[maybe_unused]] static bool is_before(const Flow &a, const Flow &b) { return a.first < b.first; }

#ifdef SHARED
static Value words_of(const Sums &sums) { return {sums.packets, sums.octets, sums.first, sums.last, sums.flags}; }
static Sums sums_of(const Value &words) { return {words[0], words[1], words[2], words[3], words[4]}; }

constexpr size_t BATCH = 256, GROUP = 32, MOST_RETIRED = 256;

static Key words_of(const FlowKey &key) { return {key.high, key.low}; }

// The sums there, where there are any, with the pair's merged into them.
static Value merged(const Value *there, const Flow &pair) {
    if (!there) return words_of(pair.second);
    Sums sums = sums_of(*there);
    sums.merge(pair.second);
    return words_of(sums);
}

#ifdef TWO_CALLS
static bool add_pair(TableSeat &seat, const Flow &pair) {
    Key key = words_of(pair.first);
    for (;;) {
        auto found = seat.find(key);
        Answer answer = found ? seat.replace(key, *found, merged(&*found, pair)) : seat.insert(key, merged(nullptr, pair));
        if (answer == Answer::done || answer == Answer::full) return answer == Answer::done;
    }
}
#else
static bool add_pair(TableSeat &seat, const Flow &pair) {
    return seat.update(words_of(pair.first), [&](const Value *there) { return merged(there, pair); }) == Answer::done;
}
#endif

// Adds the pairs from one place up to another; false where a node is wanting.
static bool add_part(TableSeat &seat, const std::vector<Flow> &pairs, size_t from, size_t to) {
    for (size_t i = from; i < to; i++) {
#ifdef AHEAD
        if ((i - from) % GROUP == 0) {
            std::array<Key, GROUP> keys;
            size_t count = std::min(GROUP, to - i);
            for (size_t k = 0; k < count; k++) keys[k] = words_of(pairs[i + k].first);
            seat.load_ahead(keys, count);
        }
#endif
#ifdef RECLAIM
        seat.reclaim_many(MOST_RETIRED);
#endif
        if (!add_pair(seat, pairs[i])) return false;
    }
    return true;
}

// Draws batches of the pairs and adds them, until none is left.
static bool add_batches(TableSeat &seat, const std::vector<Flow> &pairs, std::atomic<size_t> &drawn) {
    for (;;) {
        size_t from = BATCH * drawn.fetch_add(1);
        if (from >= pairs.size()) return true;
        if (!add_part(seat, pairs, from, std::min(from + BATCH, pairs.size()))) return false;
    }
}

// The pairs of all buckets' chains, sorted.
static std::vector<Flow> flows_in(Object &object, uint32_t buckets) {
    std::vector<Flow> flows;
    for (uint32_t bucket = 0; bucket < buckets; bucket++) {
        uint64_t next = object.backup_load(bucket) / 2 + 1;
        while (next != 0) {
            uint32_t node = next - 1;
            next = object.node_load(node, WIDTH);
            if (next == END) break;
            Value words;
            for (size_t j = 0; j < words.size(); j++) words[j] = object.node_load(node, 2 + j);
            flows.push_back({{object.node_load(node, 0), object.node_load(node, 1)}, sums_of(words)});
        }
    }
    std::sort(flows.begin(), flows.end(), is_before);
    return flows;
}

static std::vector<Flow> tally(const std::vector<unsigned char> &bytes, int argc, char **argv, Totals &totals) {
    std::vector<Flow> pairs;
    totals.datagrams = decode(bytes, totals.engines, [&](const FlowKey &key, const Sums &sums) { pairs.push_back({key, sums}); });
    totals.records = pairs.size();
    uint32_t workers = argc > 2 ? atoi(argv[2]) : 4, most = argc > 3 ? atoi(argv[3]) : 65536, buckets = argc > 4 ? atoi(argv[4]) : 65536;
    uint32_t share = 2 * most + 4 * workers + 1;
    end_phase("decode");
    Object object(workers, buckets, share, END);
    std::vector<TableSeat> seats;
    for (uint32_t w = 0; w < workers; w++) seats.emplace_back(object, workers, buckets, share, w);
    end_phase("build");
    std::atomic<size_t> drawn = 0;
    std::atomic<uint64_t> lost_looks = 0, lost_tries = 0;
    auto ran = run_threads(workers, [&](uint32_t w) {
        TableSeat seat = std::move(seats[w]);
        uint64_t made = add_batches(seat, pairs, drawn);
        lost_looks += seat.lost_looks;
        lost_tries += seat.lost_tries;
        return Ran{made, 0};
    });
    end_phase("workers");
#ifdef TELL
    fprintf(stderr, "lost_looks %" PRIu64 "\nlost_tries %" PRIu64 "\n", lost_looks.load(), lost_tries.load());
#endif
    if (ran.first.done != workers) exit(7);
    std::vector<Flow> flows = flows_in(object, buckets);
    end_phase("close_and_sort");
    if (flows.size() > most) exit(7);
    return flows;
}
#else
static std::vector<Flow> tally(const std::vector<unsigned char> &bytes, int, char **, Totals &totals) {
#ifdef HASHED
    std::unordered_map<FlowKey, Sums, Mix> flows;
#else
    std::map<FlowKey, Sums> flows;
#endif
    totals.datagrams = decode(bytes, totals.engines, [&](const FlowKey &key, const Sums &sums) {
        auto [place, is_new] = flows.try_emplace(key, sums);
        if (!is_new) place->second.merge(sums);
        totals.records++;
    });
    std::vector<Flow> sorted(flows.begin(), flows.end());
#ifdef HASHED
    std::sort(sorted.begin(), sorted.end(), is_before);
#endif
    return sorted;
}
#endif

int main(int argc, char **argv) {
    if (argc < 2) return 2;
    Totals totals;
    end_phase("");
    std::vector<unsigned char> bytes = read_file(argv[1]);
    end_phase("read");
    std::vector<Flow> sorted = tally(bytes, argc, argv, totals);
    std::string out;
    out.reserve(sorted.size() * 160 + 256);
    char line[256];
    uint64_t packets = 0, octets = 0;
    for (auto &[k, v] : sorted) {
        auto byte = [](uint64_t x, int i) { return (unsigned)(x >> (8 * i) & 255); };
        int n = snprintf(line, sizeof line, "%u.%u.%u.%u %u.%u.%u.%u %u %u %u %u %u %" PRIu64 " %" PRIu64 " %" PRIu64 " %" PRIu64 " %" PRIu64 "\n",
            byte(k.high, 7), byte(k.high, 6), byte(k.high, 5), byte(k.high, 4), byte(k.high, 3), byte(k.high, 2), byte(k.high, 1), byte(k.high, 0),
            (unsigned)(k.low >> 48), (unsigned)(k.low >> 32 & 65535), byte(k.low, 3), byte(k.low, 2), (unsigned)(k.low & 65535),
            v.packets, v.octets, v.first, v.last, v.flags);
        out.append(line, n);
        packets += v.packets;
        octets += v.octets;
    }
    for (auto &[engine, e] : totals.engines) {
        int n = snprintf(line, sizeof line, "engine %u %u flows %" PRIu64 " lost %" PRIu64 " resets %" PRIu64 "\n", engine.first, engine.second, e.flows, e.lost, e.resets);
        out.append(line, n);
    }
    int n = snprintf(line, sizeof line, "flows %zu packets %" PRIu64 " octets %" PRIu64 " records %" PRIu64 " datagrams %" PRIu64 "\n",
        sorted.size(), packets, octets, totals.records, totals.datagrams);
    out.append(line, n);
    fwrite(out.data(), 1, out.size(), stdout);
    end_phase("report");
}

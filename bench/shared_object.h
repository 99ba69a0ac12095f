// The shared object in plain C++: one table of words, each of which changes by sequentially consistent steps, and what a thread calls with. Its
// steps are those of the proved code, one for one and in the same order.
//   -DCLAIMED_READS   loads and finds go by a claim always, as before the inline words were read
//   -DREFILL          a store that lost its exchange takes and fills a node anew
//   -DAPART           the claim words of each thread stand in lines of their own, which the layout of the proved object doesn't allow
//   -DNO_STAND        a stand loads no word, which the proved calls do
//   -DCOUNT_STEPS     each thread counts its steps
#pragma once
#include "runs.h"
#include <atomic>

constexpr size_t NODE_WIDTH = WIDTH + 1;
constexpr size_t CELL_WIDTH = NODE_WIDTH + 2;
constexpr size_t CLAIMS = 4;
constexpr size_t BACK = 0, WALK = 1, OWN = 2; // the word after them, Hold, stays 0
constexpr uint64_t END = UINT64_MAX;          // the next word of an empty bucket's node
constexpr uint64_t MOST_NODES = 1 << 24;
constexpr uint64_t LAST_VERSION = uint64_t(1) << 63; // from there on no version is locked

#ifdef CLAIMED_READS
constexpr bool READS_INLINE = false;
#else
constexpr bool READS_INLINE = true;
#endif
#ifdef APART
constexpr size_t CLAIM_STRIDE = 16; // two lines, since processors fetch them in pairs
#else
constexpr size_t CLAIM_STRIDE = CLAIMS;
#endif
#ifdef REFILL
constexpr bool KEEPS_NODE = false;
#else
constexpr bool KEEPS_NODE = true;
#endif

using Node = std::array<uint64_t, NODE_WIDTH>;

// The kinds of step. The last two aren't counted by the contracts: a stand, and a refresh's load of its own node.
enum class Step {
    node_store, node_load, backup_load, backup_exchange, claim_store, recheck, claim_clear, scan_load,
    version_load, inline_load, version_again, version_lock, inline_store, version_release, mark_clear, stand, glance
};
constexpr size_t STEP_KINDS = 17;

#ifdef COUNT_STEPS
inline thread_local std::array<uint64_t, STEP_KINDS> steps_made;
inline void count(Step step) { steps_made[size_t(step)]++; }
#else
inline void count(Step) {}
#endif

// The claim words of each thread, the cells, the nodes. A cell has its version, its backup word, which is 2 * node + mark, and the inline words.
class Object {
public:
    Object(uint32_t threads, uint32_t cells, uint32_t share, uint64_t first_next)
        : threads(threads), cells_start(CLAIM_STRIDE * threads), nodes_start(cells_start + CELL_WIDTH * cells),
          words(nodes_start + NODE_WIDTH * (size_t(threads) * share + cells)) {
        for (uint32_t cell = 0; cell < cells; cell++) {
            backup(cell).store(2 * uint64_t(cell), std::memory_order_relaxed);
            inline_word(cell, WIDTH).store(first_next, std::memory_order_relaxed);
            node_word(cell, WIDTH).store(first_next, std::memory_order_relaxed);
        }
    }
    size_t claim_words() const { return CLAIMS * threads; }

    void node_store(uint32_t node, size_t j, uint64_t word) { count(Step::node_store); node_word(node, j).store(word); }
    uint64_t node_load(uint32_t node, size_t j) { count(Step::node_load); return node_word(node, j).load(); }
    uint64_t node_glance(uint32_t node, size_t j) { count(Step::glance); return node_word(node, j).load(); }

    uint64_t backup_load(uint32_t cell) { count(Step::backup_load); return backup(cell).load(); }
    // Tells the word found; it won where that is the expected one.
    uint64_t backup_exchange(uint32_t cell, uint64_t expected, uint32_t node) {
        count(Step::backup_exchange);
        return exchange(backup(cell), expected, 2 * uint64_t(node) + 1);
    }
    uint64_t mark_clear(uint32_t cell, uint32_t node) {
        count(Step::mark_clear);
        return exchange(backup(cell), 2 * uint64_t(node) + 1, 2 * uint64_t(node));
    }

    void claim_store(uint32_t thread, size_t claim, uint64_t node) { count(Step::claim_store); words[CLAIM_STRIDE * thread + claim].store(node + 1); }
    uint64_t recheck_load(uint32_t cell) { count(Step::recheck); return backup(cell).load(); }
    void claim_clear(uint32_t thread, size_t claim) { count(Step::claim_clear); words[CLAIM_STRIDE * thread + claim].store(0); }
    uint64_t scan_load(size_t word) { count(Step::scan_load); return words[CLAIM_STRIDE * (word / CLAIMS) + word % CLAIMS].load(); }

    uint64_t version_load(uint32_t cell) { count(Step::version_load); return version(cell).load(); }
    uint64_t inline_load(uint32_t cell, size_t j) { count(Step::inline_load); return inline_word(cell, j).load(); }
    uint64_t version_again(uint32_t cell) { count(Step::version_again); return version(cell).load(); }
    uint64_t version_lock(uint32_t cell, uint64_t seen) { count(Step::version_lock); return exchange(version(cell), seen, seen + 1); }
    void inline_store(uint32_t cell, size_t j, uint64_t word) { count(Step::inline_store); inline_word(cell, j).store(word); }
    void version_release(uint32_t cell, uint64_t seen) { count(Step::version_release); version(cell).store(seen + 2); }

    // The stand of a call that changes nothing: a load of the table's first word.
    void stand() {
        count(Step::stand);
#ifndef NO_STAND
        words[0].load();
#endif
    }

    // Loads of no call, which bring words near: the node that a cell's backup names, and the next word of a node, 0 where there is no such node.
    uint64_t peek_node(uint32_t cell) { return backup(cell).load() / 2; }
    uint64_t peek_next(uint64_t node) { return node < (words.size() - nodes_start) / NODE_WIDTH ? node_word(node, WIDTH).load() : 0; }

private:
    static uint64_t exchange(std::atomic<uint64_t> &word, uint64_t expected, uint64_t next) {
        word.compare_exchange_strong(expected, next);
        return expected;
    }
    std::atomic<uint64_t> &version(uint32_t cell) { return words[cells_start + CELL_WIDTH * cell]; }
    std::atomic<uint64_t> &backup(uint32_t cell) { return words[cells_start + CELL_WIDTH * cell + 1]; }
    std::atomic<uint64_t> &inline_word(uint32_t cell, size_t j) { return words[cells_start + CELL_WIDTH * cell + 2 + j]; }
    std::atomic<uint64_t> &node_word(uint32_t node, size_t j) { return words[nodes_start + NODE_WIDTH * node + j]; }

    uint32_t threads;
    size_t cells_start, nodes_start;
    std::vector<std::atomic<uint64_t>> words;
};

// What a turn of a change begins with: the cell's version, and the backup word found after it, whose node is claimed.
struct Start {
    uint64_t version, word;
    uint32_t node() const { return word / 2; }
};

// What a thread calls with: its nodes, free, held and retired, each list with room for all nodes of all threads in the first seat.
class Seat {
public:
    Seat(Object &object, uint32_t threads, uint32_t cells, uint32_t share, uint32_t thread) : changes(0), object(object), thread(thread) {
        size_t room = size_t(share) * (thread == 0 ? threads : 1);
        free.reserve(room);
        retired.reserve(room);
        named.reserve(object.claim_words());
        for (uint32_t i = 0; i < share; i++) free.push_back(cells + thread * share + i);
    }

    uint64_t changes;
    uint64_t lost_looks = 0, lost_tries = 0; // looks that found another node than the announced one, and turns of changes that another thread's change ended

    // Scans where so many nodes are retired besides those that claims may name.
    void reclaim_many(size_t most) {
        if (retired.size() >= object.claim_words() + most) scan();
    }

protected:
    void announce(size_t claim, uint64_t node) { object.claim_store(thread, claim, node); }
    void release(size_t claim) { object.claim_clear(thread, claim); }

    void clear_walk() {
        if (walks) release(WALK);
        walks = false;
    }

    Node read(uint32_t node) {
        Node words;
        for (size_t j = 0; j < NODE_WIDTH; j++) words[j] = object.node_load(node, j);
        return words;
    }

    // The cell's inline words, read without a claim: under one even version, with the backup unmarked after them.
    std::optional<Node> read_inline(uint32_t cell) {
        uint64_t version = object.version_load(cell);
        if (version % 2 == 1) return {};
        Node words;
        for (size_t j = 0; j < NODE_WIDTH; j++) words[j] = object.inline_load(cell, j);
        if (object.backup_load(cell) % 2 == 1) return {};
        if (object.version_again(cell) != version) return {};
        return words;
    }

    // Announces the node of the word, and looks again; tells whether the cell still names it. The word is then the one found.
    bool claim_once(uint32_t cell, uint64_t &word) {
        announce(BACK, word / 2);
        uint64_t found = object.recheck_load(cell);
        bool same = found / 2 == word / 2;
        lost_looks += !same;
        word = found;
        return same;
    }

    // Claims the node that the cell names, and tells the word found.
    uint64_t claim_node(uint32_t cell) {
        uint64_t word = object.backup_load(cell);
        while (!claim_once(cell, word)) {}
        return word;
    }

    // Finds the cell's version, and claims the node that it names then; after each lost look it finds the version anew.
    Start claim_versioned(uint32_t cell) {
        Start start;
        start.version = object.version_load(cell);
        start.word = object.backup_load(cell);
        while (!claim_once(cell, start.word)) start.version = object.version_load(cell);
        return start;
    }

    // A call that changes nothing ends with its stand.
    void answer() {
        release(BACK);
        object.stand();
    }

    // Reads all claim words; each retired node that none names is free again.
    void scan() {
        clear_walk();
        named.clear();
        for (size_t word = 0; word < object.claim_words(); word++) {
            uint64_t found = object.scan_load(word);
            if (found != 0) named.push_back(found - 1);
        }
        std::sort(named.begin(), named.end());
        size_t kept = 0;
        for (uint32_t node : retired) {
            if (std::binary_search(named.begin(), named.end(), uint64_t(node))) {
                retired[kept++] = node;
            } else {
                free.push_back(node);
            }
        }
        retired.resize(kept);
    }

    // Takes a free node, which is held then.
    uint32_t take() {
        uint32_t node = free.back();
        free.pop_back();
        object.node_store(node, 0, 0);
        held.push_back(node);
        return node;
    }

    void fill(uint32_t node, const Node &words) {
        for (size_t j = 0; j < NODE_WIDTH; j++) object.node_store(node, j, words[j]);
    }

    uint32_t put(const Node &words) {
        uint32_t node = take();
        fill(node, words);
        return node;
    }

    void put_back_all() {
        free.insert(free.end(), held.rbegin(), held.rend());
        held.clear();
    }

    // Gives the cell the chain that the held nodes head, this one first, and refreshes the cell; tells whether the exchange won. Where it lost, the
    // nodes stay held.
    bool install(uint32_t cell, Start start, uint32_t node) {
        announce(OWN, node);
        bool won = exchange(cell, start.word, node);
        if (won) {
            changes++;
            retired.push_back(start.node());
            retired.insert(retired.end(), noted.begin(), noted.end());
            held.clear();
            refresh(cell, node, start.version);
        }
        release(OWN);
        return won;
    }

    Object &object;
    uint32_t thread;
    std::vector<uint32_t> free, held, retired;
    std::vector<uint32_t> noted; // the links of the claimed chain that the change leaves out
    bool walks = false;          // whether the Walk claim's word is not 0

private:
    // Where only the mark was cleared meanwhile, it tries once more.
    bool exchange(uint32_t cell, uint64_t word, uint32_t node) {
        uint64_t found = object.backup_exchange(cell, word, node);
        if (found == word) return true;
        return found / 2 == word / 2 && object.backup_exchange(cell, found, node) == found;
    }

    // Brings the installed node's words into the inline words, and clears the cell's mark, where the version found before the exchange is still there.
    void refresh(uint32_t cell, uint32_t node, uint64_t version) {
        if (version % 2 == 1 || version >= LAST_VERSION) return;
        if (object.version_lock(cell, version) != version) return;
        for (size_t j = 0; j < NODE_WIDTH; j++) object.inline_store(cell, j, object.node_glance(node, j));
        object.version_release(cell, version);
        object.mark_clear(cell, node);
    }

    std::vector<uint64_t> named;
};

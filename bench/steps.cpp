// Counts the steps of single calls on the shared object in plain C++, and holds them against those of the proved calls; 1 is the exit status where
// any differ. One thread makes the calls, so that no step is lost.
//   g++ -O2 -std=c++17 -pthread -DCOUNT_STEPS -o steps steps.cpp      options: shared_object.h
#include "register_seat.h"
#include "table_seat.h"

#ifndef COUNT_STEPS
#error "steps.cpp is compiled with -DCOUNT_STEPS"
#endif

using Steps = std::array<uint64_t, STEP_KINDS>;

constexpr const char *NAMES[STEP_KINDS] = {"node store", "node load", "backup load", "backup exchange", "claim store", "recheck", "claim clear", "scan load",
    "version load", "inline load", "version again", "version lock", "inline store", "version release", "mark clear", "stand", "glance"};

static Steps operator+(Steps all, const Steps &more) {
    for (size_t kind = 0; kind < STEP_KINDS; kind++) all[kind] += more[kind];
    return all;
}

static Steps many(Step kind, uint64_t count = 1) {
    Steps steps{};
    steps[size_t(kind)] = count;
    return steps;
}

// The version, the backup and a claim of its node.
static Steps claimed() { return many(Step::backup_load) + many(Step::claim_store) + many(Step::recheck); }
static Steps begun() { return many(Step::version_load) + claimed(); }

// The nodes of a chain, read from the first one on: each link is claimed.
static Steps walked(uint64_t nodes) {
    return many(Step::node_load, nodes * NODE_WIDTH) + many(Step::claim_store, nodes - 1) + many(Step::recheck, nodes - 1);
}

// Each node is taken by a store of its word 0.
static Steps filled(uint64_t nodes) { return many(Step::node_store, nodes * (NODE_WIDTH + 1)); }

// Own announced, the exchange, the refresh, and Own cleared.
static Steps installed() {
    return many(Step::claim_store) + many(Step::backup_exchange) + many(Step::version_lock) + many(Step::glance, NODE_WIDTH) +
        many(Step::inline_store, NODE_WIDTH) + many(Step::version_release) + many(Step::mark_clear) + many(Step::claim_clear);
}

// Back cleared, and Walk where a link was claimed.
static Steps ended(bool walks) { return many(Step::claim_clear, walks ? 2 : 1); }
static Steps answered(bool walks) { return ended(walks) + many(Step::stand); }

static Steps read_claimed(uint64_t nodes) { return claimed() + walked(nodes) + answered(nodes > 1); }
static Steps read_inline(size_t words, bool looks, bool again) {
    return many(Step::version_load) + many(Step::inline_load, words) + many(Step::backup_load, looks) + many(Step::version_again, again);
}

// A read by the inline words; or one that looks at them in vain, and then reads so many nodes.
static Steps read_fast() { return READS_INLINE ? read_inline(NODE_WIDTH, true, true) + many(Step::stand) : read_claimed(1); }
static Steps read_after(const Steps &look, uint64_t nodes) { return (READS_INLINE ? look : Steps{}) + read_claimed(nodes); }

static bool agree = true;

// Makes a call, and prints its steps; those that were expected too, where they are others.
template <class Call> void check(const char *name, const Steps &expected, const Call &call) {
    steps_made = {};
    call();
    uint64_t counted = 0;
    for (size_t kind = 0; kind < size_t(Step::stand); kind++) counted += steps_made[kind];
    printf("%s: %llu counted steps:", name, (unsigned long long)counted);
    for (size_t kind = 0; kind < STEP_KINDS; kind++) {
        if (steps_made[kind] != 0) printf(" %s %llu,", NAMES[kind], (unsigned long long)steps_made[kind]);
        if (steps_made[kind] == expected[kind]) continue;
        printf(" BUT %s %llu EXPECTED,", NAMES[kind], (unsigned long long)expected[kind]);
        agree = false;
    }
    printf("\n");
}

static void check_registers() {
    constexpr uint32_t THREADS = 2, SHARE = 5;
    Object object(THREADS, 3, SHARE, 0);
    RegisterSeat seat(object, THREADS, 3, SHARE, 0);
    Rec one{1}, two{2}, three{3};
    Steps change = begun() + walked(1) + filled(1) + installed() + ended(false);
    Steps stays = begun() + walked(1) + answered(false);
    check("load", read_fast(), [&] { seat.load(0); });
    check("store", change, [&] { seat.store(0, one); });
    check("store of the record there", stays, [&] { seat.store(0, one); });
    check("swap, yes", change, [&] { seat.compare_and_swap(0, one, two); });
    check("swap, no", stays, [&] { seat.compare_and_swap(0, one, three); });
    check("swap of the record there for itself", stays, [&] { seat.compare_and_swap(0, two, two); });
    check("load after changes", read_fast(), [&] { seat.load(0); });
    for (uint64_t i = 0; i < SHARE - 2; i++) seat.store(0, Rec{10 + i});
    check("store that scans", change + many(Step::scan_load, CLAIMS * THREADS), [&] { seat.store(0, one); });
    uint64_t word = object.backup_load(1);
    object.backup_exchange(1, word, word / 2);
    check("load of a marked register", read_after(read_inline(NODE_WIDTH, true, false), 1), [&] { seat.load(1); });
    object.version_lock(2, 0);
    check("load of a locked register", read_after(read_inline(0, false, false), 1), [&] { seat.load(2); });
    Steps stale = begun() + walked(1) + filled(1) + many(Step::claim_store) + many(Step::backup_exchange) + many(Step::claim_clear) + ended(false);
    check("store in a locked register", stale, [&] { seat.store(2, one); });
}

static void check_table() {
    Object object(1, 1, 64, END);
    TableSeat seat(object, 1, 1, 64, 0);
    Key a{1, 1}, b{2, 2}, c{3, 3}, d{4, 4};
    Value one{1}, two{2};
    auto changes = [](uint64_t nodes, uint64_t copied, uint64_t fills, bool walks) {
        return begun() + walked(nodes) + walked(copied) + filled(fills) + installed() + ended(walks);
    };
    auto stays = [](uint64_t nodes) { return begun() + walked(nodes) + answered(nodes > 1); };
    Steps look = read_inline(NODE_WIDTH, true, true);
    check("find in an empty bucket", read_fast(), [&] { seat.find(a); });
    check("replace in an empty bucket", stays(1), [&] { seat.replace(a, one, two); });
    check("insert into an empty bucket", changes(1, 1, 1, false), [&] { seat.insert(a, one); });
    check("find of the only key", read_fast(), [&] { seat.find(a); });
    check("find beside the only key", read_fast(), [&] { seat.find(b); });
    check("insert beside one record", changes(1, 1, 2, false), [&] { seat.insert(b, one); });
    check("insert beside two records", changes(2, 1, 2, true), [&] { seat.insert(c, one); });
    check("insert of a key that is there, the third", stays(3), [&] { seat.insert(a, one); });
    check("find of the first of three", read_fast(), [&] { seat.find(c); });
    check("find of the third of three", read_after(look, 3), [&] { seat.find(a); });
    check("find beside three", read_after(look, 3), [&] { seat.find(d); });
    check("replace of the first of three", changes(1, 1, 1, false), [&] { seat.replace(c, one, two); });
    check("replace of the third of three", changes(3, 3, 3, true), [&] { seat.replace(a, one, two); });
    check("replace of another value", stays(3), [&] { seat.replace(a, one, two); });
    auto gives = [](const Value &value) { return [=](const Value *) { return value; }; };
    check("update of the third of three", changes(3, 3, 3, true), [&] { seat.update(a, gives(one)); });
    check("update to the value there, of the third of three", stays(3), [&] { seat.update(a, gives(one)); });
    check("update beside three", changes(3, 1, 2, true), [&] { seat.update(d, gives(one)); });
    check("remove of the first of four", changes(1, 2, 1, true), [&] { seat.remove(d); });
    check("remove of the third of three", changes(3, 3, 2, true), [&] { seat.remove(a); });
    check("remove of the first of two", changes(1, 2, 1, true), [&] { seat.remove(c); });
    check("remove of the only key", changes(1, 1, 1, false), [&] { seat.remove(b); });
    check("remove in an empty bucket", stays(1), [&] { seat.remove(b); });
}

int main() {
    check_registers();
    check_table();
    return agree ? 0 : 1;
}

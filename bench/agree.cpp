// Tries each form of registers and tables under threads, and says whether it kept what each must keep; 1 is the exit status where one didn't.
//   g++ -O2 -std=c++17 -pthread [-DWITH_TBB] -o agree agree.cpp -latomic [-ltbb]      options: shared_object.h
//   agree [THREADS [CALLS]]
// On registers each thread adds to all words of a record, by loads and compare-and-swaps until one is made, and stores records of one number; in
// between it loads both. No record that is found is torn, and the sums are those of all calls. On tables each thread adds to values, by finds and
// inserts or replaces until one is made, and takes some out; what was taken out and what is left make the sum of all calls. At the end each cell
// of the shared object whose backup is unmarked has an even version and the words of its node inline.
#include "other_registers.h"
#include "other_tables.h"
#include "register_seat.h"
#include "table_seat.h"

constexpr uint32_t REGISTERS = 4, BUCKETS = 8, KEYS = 24;

static bool agree = true;

static void tell(const char *what, const char *form, bool holds) {
    printf("%s, %s: %s\n", what, form, holds ? "holds" : "DOES NOT HOLD");
    agree = agree && holds;
}

// The words that so many additions make of zeros: each word has a step of its own, so that words of two records don't fit.
template <size_t N> std::array<uint64_t, N> added(uint64_t times) {
    std::array<uint64_t, N> words;
    for (size_t j = 0; j < N; j++) words[j] = times * (j + 1);
    return words;
}

template <size_t N> bool is_whole(const std::array<uint64_t, N> &words) { return words == added<N>(words[0]); }

static std::atomic<bool> torn; // whether a record or a value was found whose words are of several

// The first half of the registers has sums, and the second one stores.
template <class SeatOfRegisters> void use_registers(SeatOfRegisters &seat, uint32_t thread, uint32_t calls) {
    for (uint32_t i = 0; i < calls; i++) {
        uint32_t reg = (thread + i) % (REGISTERS / 2);
        for (bool made = false; !made;) {
            Rec record = seat.load(reg);
            if (!is_whole(record)) torn = true;
            made = seat.compare_and_swap(reg, record, added<WIDTH>(record[0] + 1)) == Swap::yes;
        }
        uint32_t other = REGISTERS / 2 + (thread + i) % (REGISTERS / 2);
        if (i % 4 == 0) seat.store(other, added<WIDTH>(uint64_t(thread) << 32 | i));
        if (!is_whole(seat.load(other))) torn = true;
    }
}

// Tells how many additions were made, and how many of them were taken out. An addition for which too few nodes are free is left out.
template <class SeatOfTable> Ran use_table(SeatOfTable &seat, uint32_t thread, uint32_t calls) {
    Ran ran{0, 0};
    for (uint32_t i = 0; i < calls; i++) {
        Key key{(thread + uint64_t(i) * i) % KEYS, 7};
        Answer told = Answer::there;
        while (told == Answer::there || told == Answer::absent) {
            auto found = seat.find(key);
            if (found && !is_whole(*found)) torn = true;
            Value more = added<VALUE_WORDS>(found ? (*found)[0] + 1 : 1);
            told = found ? seat.replace(key, *found, more) : seat.insert(key, more);
        }
        ran.done += told == Answer::done;
        if (i % 8 != 0) continue;
        Removed gone = seat.remove({(thread + i) % KEYS, 7});
        if (gone.answer != Answer::done) continue;
        if (!is_whole(gone.value)) torn = true;
        ran.changes += gone.value[0];
    }
    return ran;
}

// The last look is by a seat whose number is that of the threads.
template <class SeatOf> void try_registers(const char *form, uint32_t threads, uint32_t calls, const SeatOf &seat_of) {
    torn = false;
    run_threads(threads, [&](uint32_t thread) {
        auto seat = seat_of(thread);
        use_registers(seat, thread, calls);
        return Ran{0, 0};
    });
    auto last = seat_of(threads);
    uint64_t sum = 0;
    for (uint32_t reg = 0; reg < REGISTERS / 2; reg++) sum += last.load(reg)[0];
    tell("registers: sums and whole records", form, !torn && sum == uint64_t(threads) * calls);
}

template <class SeatOf> void try_table(const char *form, uint32_t threads, uint32_t calls, const SeatOf &seat_of) {
    torn = false;
    Ran ran = run_threads(threads, [&](uint32_t thread) {
        auto seat = seat_of(thread);
        return use_table(seat, thread, calls);
    }).first;
    auto last = seat_of(threads);
    uint64_t left = 0;
    for (uint64_t k = 0; k < KEYS; k++) {
        auto found = last.find({k, 7});
        left += found ? (*found)[0] : 0;
    }
    bool most_made = ran.done >= uint64_t(threads) * calls / 2;
    tell("table: sums and whole values", form, !torn && most_made && ran.changes + left == ran.done);
}

// Each unmarked cell's inline words are its node's, under an even version.
static void check_cells(const char *form, Object &object, uint32_t cells) {
    bool good = true;
    for (uint32_t cell = 0; cell < cells; cell++) {
        uint64_t word = object.backup_load(cell);
        if (word % 2 == 1) continue;
        good = good && object.version_load(cell) % 2 == 0;
        for (size_t j = 0; j < NODE_WIDTH; j++) good = good && object.inline_load(cell, j) == object.node_load(word / 2, j);
    }
    tell("cells: unmarked copies", form, good);
}

// Each seat has few nodes, so that it scans often.
static void try_shared(uint32_t threads, uint32_t calls) {
    constexpr uint32_t SHARE = 256;
    uint32_t seats = threads + 1;
    Object registers(seats, REGISTERS, SHARE, 0);
    try_registers("shared object", threads, calls, [&](uint32_t thread) { return RegisterSeat(registers, seats, REGISTERS, SHARE, thread); });
    check_cells("registers", registers, REGISTERS);
    Object table(seats, BUCKETS, SHARE, END);
    try_table("shared object", threads, calls, [&](uint32_t thread) { return TableSeat(table, seats, BUCKETS, SHARE, thread); });
    check_cells("buckets", table, BUCKETS);
}

template <class Registers> void try_other_registers(const char *form, uint32_t threads, uint32_t calls) {
    Registers registers(REGISTERS);
    try_registers(form, threads, calls, [&](uint32_t) { return CallerOfRegisters<Registers>(registers); });
}

template <class Table> void try_other_table(const char *form, uint32_t threads, uint32_t calls) {
    Table table(BUCKETS);
    try_table(form, threads, calls, [&](uint32_t) { return CallerOfTable<Table>(table); });
}

int main(int argc, char **argv) {
    uint32_t threads = argc > 1 ? number_in(argv[1]).value_or(4) : 4;
    uint32_t calls = argc > 2 ? number_in(argv[2]).value_or(100000) : 100000;
    try_shared(threads, calls);
    try_other_registers<LockedRegisters<std::mutex>>("mutex", threads, calls);
    try_other_registers<LockedRegisters<SpinLock>>("spin", threads, calls);
    try_other_registers<SeqlockRegisters>("seqlock", threads, calls);
    try_other_registers<AtomicRegisters>("atomic", threads, calls);
    try_other_table<ShardedTable>("sharded", threads, calls);
#ifdef WITH_TBB
    try_other_table<TbbTable>("tbb", threads, calls);
#endif
    return agree ? 0 : 1;
}

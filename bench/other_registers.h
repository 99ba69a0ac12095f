// What a user would take in place of the shared registers: each form has them in a cache line of their own or more.
#pragma once
#include "register_calls.h"
#include <atomic>
#include <mutex>

constexpr size_t LINE = 64;

inline void pause_for_others() {
#if defined(__x86_64__) || defined(__i386__)
    __builtin_ia32_pause();
#else
    std::this_thread::yield();
#endif
}

// A lock that is tried by an exchange once it was seen free.
class SpinLock {
public:
    void lock() {
        while (taken.exchange(true, std::memory_order_acquire)) {
            while (taken.load(std::memory_order_relaxed)) pause_for_others();
        }
    }
    void unlock() { taken.store(false, std::memory_order_release); }

private:
    std::atomic<bool> taken{false};
};

// Each register behind a lock of its own, for reading too.
template <class Lock> class LockedRegisters {
public:
    explicit LockedRegisters(uint32_t count) : cells(count) {}

    Rec load(uint32_t reg) {
        std::lock_guard<Lock> held(cells[reg].lock);
        return cells[reg].record;
    }

    void store(uint32_t reg, const Rec &record) {
        std::lock_guard<Lock> held(cells[reg].lock);
        cells[reg].record = record;
    }

    bool compare_and_swap(uint32_t reg, const Rec &old, const Rec &record) {
        std::lock_guard<Lock> held(cells[reg].lock);
        if (cells[reg].record != old) return false;
        cells[reg].record = record;
        return true;
    }

private:
    struct alignas(LINE) Cell {
        Lock lock;
        Rec record{};
    };
    std::vector<Cell> cells;
};

// Each register under a version, which is odd while a writer stores its words. A reader whose version changed reads again.
class SeqlockRegisters {
public:
    explicit SeqlockRegisters(uint32_t count) : cells(count) {}

    Rec load(uint32_t reg) {
        Cell &cell = cells[reg];
        for (;;) {
            uint64_t version = cell.version.load(std::memory_order_acquire);
            Rec record = read(cell);
            std::atomic_thread_fence(std::memory_order_acquire);
            if (version % 2 == 0 && cell.version.load(std::memory_order_relaxed) == version) return record;
            pause_for_others();
        }
    }

    void store(uint32_t reg, const Rec &record) {
        Cell &cell = cells[reg];
        uint64_t version = lock(cell);
        write(cell, record);
        cell.version.store(version + 2, std::memory_order_release);
    }

    bool compare_and_swap(uint32_t reg, const Rec &old, const Rec &record) {
        if (load(reg) != old) return false;
        Cell &cell = cells[reg];
        uint64_t version = lock(cell);
        bool same = read(cell) == old;
        if (same) write(cell, record);
        cell.version.store(version + 2, std::memory_order_release);
        return same;
    }

private:
    struct alignas(LINE) Cell {
        std::atomic<uint64_t> version{0};
        std::array<std::atomic<uint64_t>, WIDTH> words{};
    };

    static Rec read(const Cell &cell) {
        Rec record;
        for (size_t j = 0; j < WIDTH; j++) record[j] = cell.words[j].load(std::memory_order_relaxed);
        return record;
    }

    static void write(Cell &cell, const Rec &record) {
        for (size_t j = 0; j < WIDTH; j++) cell.words[j].store(record[j], std::memory_order_relaxed);
    }

    // Makes an even version odd, and tells it. No word is stored before.
    static uint64_t lock(Cell &cell) {
        for (;;) {
            uint64_t version = cell.version.load(std::memory_order_relaxed);
            if (version % 2 == 0 && cell.version.compare_exchange_weak(version, version + 1, std::memory_order_acquire)) {
                std::atomic_thread_fence(std::memory_order_release);
                return version;
            }
            pause_for_others();
        }
    }

    std::vector<Cell> cells;
};

// Each register a `std::atomic` of the record, which is too wide for the processor: libatomic takes a lock for each call.
class AtomicRegisters {
public:
    explicit AtomicRegisters(uint32_t count) : cells(count) {}

    Rec load(uint32_t reg) { return cells[reg].record.load(); }
    void store(uint32_t reg, const Rec &record) { cells[reg].record.store(record); }
    bool compare_and_swap(uint32_t reg, Rec old, const Rec &record) { return cells[reg].record.compare_exchange_strong(old, record); }

private:
    struct alignas(LINE) Cell {
        std::atomic<Rec> record{Rec{}};
    };
    std::vector<Cell> cells;
};

// Registers that one thread alone calls: no form that several threads call can grow more than copies of these, so they show what the machine leaves.
class OwnRegisters {
public:
    explicit OwnRegisters(uint32_t count) : cells(count) {}

    Rec load(uint32_t reg) {
        Rec record;
        for (size_t j = 0; j < WIDTH; j++) record[j] = cells[reg].words[j].load(std::memory_order_relaxed);
        return record;
    }

    void store(uint32_t reg, const Rec &record) {
        for (size_t j = 0; j < WIDTH; j++) cells[reg].words[j].store(record[j], std::memory_order_relaxed);
    }

    bool compare_and_swap(uint32_t reg, const Rec &old, const Rec &record) {
        if (load(reg) != old) return false;
        store(reg, record);
        return true;
    }

private:
    struct alignas(LINE) Cell {
        std::array<std::atomic<uint64_t>, WIDTH> words{};
    };
    std::vector<Cell> cells;
};

// A thread's calls on such registers. Each store counts as a change.
template <class Registers> class CallerOfRegisters {
public:
    explicit CallerOfRegisters(Registers &registers) : registers(registers) {}

    Rec load(uint32_t reg) { return registers.load(reg); }

    bool store(uint32_t reg, const Rec &record) {
        registers.store(reg, record);
        changes++;
        return true;
    }

    Swap compare_and_swap(uint32_t reg, const Rec &old, const Rec &record) {
        if (!registers.compare_and_swap(reg, old, record)) return Swap::no;
        changes += old != record;
        return Swap::yes;
    }

    uint64_t changes = 0;

private:
    Registers &registers;
};

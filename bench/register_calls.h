// The calls of `register_speed`, made through any form of registers.
#pragma once
#include "runs.h"

enum class Swap { yes, no, full };

// few: of FEW calls the last is a compare-and-swap of the register of the load before it, and all others are loads; mix: so is each second call.
enum class RegisterKind { load, store, few, mix };

struct RegistersAsked {
    uint32_t threads, registers, calls, share;
    RegisterKind kind;
    std::vector<uint32_t> numbers;
};

inline bool is_swap(RegisterKind kind, uint32_t i) {
    if (kind == RegisterKind::mix) return i % 2 == 1;
    return kind == RegisterKind::few && i % FEW == FEW - 1;
}

// How often the thread drew a register before its call i: a compare-and-swap takes the one of the load before it.
inline uint32_t draws_before(RegisterKind kind, uint32_t i) {
    if (kind == RegisterKind::mix) return i / 2;
    return kind == RegisterKind::few ? i - (i + 1) / FEW : i;
}

inline uint32_t register_of(const RegistersAsked &asked, uint32_t thread, uint32_t i) {
    return draw(asked.numbers, asked.calls, thread, draws_before(asked.kind, i)) % asked.registers;
}

// Makes all calls of one seat, and tells how many were made, and how many changed a register.
template <class SeatOfRegisters> Ran make_calls(SeatOfRegisters &seat, const RegistersAsked &asked, uint32_t thread) {
    uint64_t done = 0;
    Rec loaded{};
    for (uint32_t i = 0; i < asked.calls; i++) {
        uint32_t reg = register_of(asked, thread, i);
        Rec record{uint64_t(i) + 1, thread};
        if (asked.kind == RegisterKind::store) {
            done += seat.store(reg, record);
        } else if (is_swap(asked.kind, i)) {
            done += seat.compare_and_swap(reg, loaded, record) != Swap::full;
        } else {
            loaded = seat.load(reg);
            done++;
        }
    }
    return {done, seat.changes};
}

inline std::optional<RegistersAsked> registers_asked(const std::vector<std::string_view> &words) {
    auto numbers = numbers_in<4>(words);
    if (!numbers) return {};
    auto [threads, registers, calls, share] = *numbers;
    if (threads == 0 || threads > 64 || registers == 0 || registers > 64 || share == 0 || share > 1 << 22) return {};
    constexpr std::pair<std::string_view, RegisterKind> kinds[] = {
        {"load", RegisterKind::load}, {"store", RegisterKind::store}, {"few", RegisterKind::few}, {"mix", RegisterKind::mix}};
    for (auto [word, kind] : kinds) {
        if (words[4] == word) return RegistersAsked{threads, registers, calls, share, kind, {}};
    }
    return {};
}

// The calls of all threads, each through the seat that `seat_of` gives its number, and the line.
template <class SeatOf> void run_registers(const RegistersAsked &asked, const char *kind, bool timed, const SeatOf &seat_of) {
    auto [ran, took] = run_threads(asked.threads, [&](uint32_t thread) {
        auto seat = seat_of(thread); // off the others' cache lines
        return make_calls(seat, asked, thread);
    });
    printf("kind %s threads %u registers %u ", kind, asked.threads, asked.registers);
    print_counts(uint64_t(asked.calls) * asked.threads, ran, timed, took);
}

// What the words ask, with the stream's numbers; where they ask nothing, a line says so.
inline std::optional<RegistersAsked> read_registers_asked(const std::vector<std::string_view> &words, const char *usage) {
    auto asked = registers_asked(words);
    if (!asked) {
        printf("%s\n", usage);
        return {};
    }
    if (words.size() == 6) {
        asked->numbers = read_numbers(words[5].data());
        if (asked->numbers.empty()) return {};
    }
    return asked;
}

// What the programs in C++ have in common: the words of a command line, the numbers of a stream file, and threads that are timed.
#pragma once
#include <algorithm>
#include <array>
#include <charconv>
#include <chrono>
#include <cstdint>
#include <cstdio>
#include <future>
#include <optional>
#include <string_view>
#include <thread>
#include <utility>
#include <vector>

constexpr size_t WIDTH = 7;
using Rec = std::array<uint64_t, WIDTH>;

// Of so many calls in a row the last one changes, in a run that is asked for few changes.
constexpr uint32_t FEW = 20;

inline std::optional<uint32_t> number_in(std::string_view word) {
    uint32_t number = 0;
    auto [end, fault] = std::from_chars(word.data(), word.data() + word.size(), number);
    if (fault != std::errc() || end != word.data() + word.size()) return {};
    return number;
}

// The numbers that the first N words spell, where a kind of calls and maybe a file come after them.
template <size_t N> std::optional<std::array<uint32_t, N>> numbers_in(const std::vector<std::string_view> &words) {
    if (words.size() != N + 1 && words.size() != N + 2) return {};
    std::array<uint32_t, N> numbers;
    for (size_t i = 0; i < N; i++) {
        auto number = number_in(words[i]);
        if (!number) return {};
        numbers[i] = *number;
    }
    return numbers;
}

// The 32-bit little-endian numbers of a file; where it has none, a line says so.
inline std::vector<uint32_t> read_numbers(const char *path) {
    std::vector<uint32_t> numbers;
    std::vector<unsigned char> bytes;
    FILE *file = fopen(path, "rb");
    size_t filled = 0;
    for (size_t n = 1; file && n != 0; filled += n) {
        bytes.resize(filled + (1 << 18));
        n = fread(bytes.data() + filled, 1, 1 << 18, file);
    }
    if (!file || ferror(file)) {
        printf("%s can't be read\n", path);
    } else if (filled == 0) {
        printf("%s is empty\n", path);
    } else if (filled % 4 != 0) {
        printf("%s has a length that is no multiple of 4\n", path);
    } else {
        for (size_t i = 0; i < filled; i += 4) numbers.push_back(bytes[i] | bytes[i + 1] << 8 | bytes[i + 2] << 16 | uint32_t(bytes[i + 3]) << 24);
    }
    if (file) fclose(file);
    return numbers;
}

// The number that a thread of so many calls draws; without a file it is the sum of the two.
inline uint64_t draw(const std::vector<uint32_t> &numbers, uint32_t calls, uint32_t thread, uint32_t i) {
    if (numbers.empty()) return uint64_t(thread) + i;
    return numbers[(uint64_t(thread) * calls + i) % numbers.size()];
}

struct Ran {
    uint64_t done, changes;
};

// Has each thread do its work, and tells what they did together and the microseconds.
template <class Work> std::pair<Ran, long long> run_threads(uint32_t count, const Work &work) {
    std::vector<Ran> ran(count);
    auto start = std::chrono::steady_clock::now();
    std::vector<std::thread> threads;
    for (uint32_t thread = 1; thread < count; thread++) threads.emplace_back([&, thread] { ran[thread] = work(thread); });
    ran[0] = work(0);
    for (auto &thread : threads) thread.join();
    auto took = std::chrono::duration_cast<std::chrono::microseconds>(std::chrono::steady_clock::now() - start);
    Ran all{0, 0};
    for (const Ran &one : ran) all = {all.done + one.done, all.changes + one.changes};
    return {all, took.count()};
}

// Does the work in a process of several threads, as a user's is: in one of a single thread the C library's mutex takes no locked step.
template <class Work> void work_beside_a_thread(const Work &work) {
    std::promise<void> end;
    std::thread waiting([&] { end.get_future().wait(); });
    work();
    end.set_value();
    waiting.join();
}

// The words from one place on, but for `time`, which stands there where the time is wanted.
inline std::vector<std::string_view> words_of(int argc, char **argv, int from, bool &timed) {
    std::vector<std::string_view> words(argv + std::min(from, argc), argv + argc);
    timed = !words.empty() && words[0] == "time";
    if (timed) words.erase(words.begin());
    return words;
}

// The end of a run's line; its time stands in it where it is wanted.
inline void print_counts(uint64_t calls, Ran ran, bool timed, long long took) {
    printf("calls %llu ", (unsigned long long)calls);
    if (timed) printf("microseconds %lld ", took);
    printf("done %llu changes %llu\n", (unsigned long long)ran.done, (unsigned long long)ran.changes);
}

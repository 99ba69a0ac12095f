// The calls of `table_speed`, made through any form of a table.
#pragma once
#include "runs.h"

constexpr size_t KEY_WORDS = 2;
constexpr size_t VALUE_WORDS = WIDTH - KEY_WORDS;

using Key = std::array<uint64_t, KEY_WORDS>;
using Value = std::array<uint64_t, VALUE_WORDS>;
enum class Answer { done, there, absent, full };

struct Removed {
    Answer answer;
    Value value;
};

// The key's number, of which each form makes its bucket.
inline uint64_t number_of(const Key &key) {
    uint64_t turned = key[1] << 32 | key[1] >> 32;
    return (key[0] ^ turned) * 0x9E3779B97F4A7C15 >> 32;
}

// sum: each second call is an insert or a replace of the key of the find before it, by what that found; few: so is the last of FEW calls.
enum class TableKind { find, insert, mix, sum, few };

struct TableAsked {
    uint32_t threads, buckets, keys, calls, share, filling;
    TableKind kind;
    std::vector<uint32_t> numbers;
};

inline uint32_t evens(uint32_t keys) { return (keys + 1) / 2; }

inline bool is_find(TableKind kind, uint32_t timed) {
    if (kind == TableKind::few) return timed % FEW != FEW - 1;
    return kind == TableKind::find || (kind != TableKind::insert && timed % 2 == 0);
}

// How often the thread drew a key before its timed call i: a change by what was found takes the key of that find.
inline uint32_t draws_before(TableKind kind, uint32_t timed) {
    if (kind == TableKind::sum) return timed / 2;
    return kind == TableKind::few ? timed - (timed + 1) / FEW : timed;
}

// The key number of a thread's call; the threads fill the table with the even ones in turn.
inline uint32_t index_of(const TableAsked &asked, uint32_t thread, uint32_t i) {
    if (i < asked.filling) return 2 * ((thread + uint64_t(asked.threads) * i) % evens(asked.keys));
    return draw(asked.numbers, asked.calls, thread, draws_before(asked.kind, i - asked.filling)) % asked.keys;
}

inline Key key_of(uint32_t index) { return {index * 6364136223846793005u + 1442695040888963407u, index}; }

// Makes the calls of one seat from one number up to another, and tells how many were made, and how many of them changed the table.
template <class SeatOfTable> Ran make_calls(SeatOfTable &seat, const TableAsked &asked, uint32_t thread, uint32_t from, uint32_t to) {
    bool by_found = asked.kind == TableKind::sum || asked.kind == TableKind::few;
    uint64_t done = 0, before = seat.changes;
    std::optional<Value> found;
    for (uint32_t i = from; i < to; i++) {
        Key key = key_of(index_of(asked, thread, i));
        Value value{uint64_t(i) + 1, thread};
        if (i >= asked.filling && is_find(asked.kind, i - asked.filling)) {
            found = seat.find(key);
            done++;
        } else if (by_found && found) {
            value[0] += (*found)[0];
            done += seat.replace(key, *found, value) != Answer::full;
        } else {
            done += seat.insert(key, value) != Answer::full;
        }
    }
    return {done, seat.changes - before};
}

inline std::optional<TableAsked> table_asked(const std::vector<std::string_view> &words) {
    auto numbers = numbers_in<5>(words);
    if (!numbers) return {};
    auto [threads, buckets, keys, calls, share] = *numbers;
    if (threads == 0 || threads > 64 || buckets == 0 || buckets > 1 << 20 || keys == 0 || keys > 1 << 24) return {};
    if (calls > uint32_t(1) << 31 || share == 0 || share > 1 << 22) return {};
    constexpr std::pair<std::string_view, TableKind> kinds[] = {
        {"find", TableKind::find}, {"insert", TableKind::insert}, {"mix", TableKind::mix}, {"sum", TableKind::sum}, {"few", TableKind::few}};
    for (auto [word, kind] : kinds) {
        bool fills = kind == TableKind::find || kind == TableKind::few;
        uint32_t filling = fills ? (evens(keys) + threads - 1) / threads : 0;
        if (words[5] == word) return TableAsked{threads, buckets, keys, calls, share, filling, kind, {}};
    }
    return {};
}

// What the words ask, with the stream's numbers; where they ask nothing, a line says so.
inline std::optional<TableAsked> read_table_asked(const std::vector<std::string_view> &words, const char *usage) {
    auto asked = table_asked(words);
    if (!asked) {
        printf("%s\n", usage);
        return {};
    }
    if (words.size() == 7) {
        asked->numbers = read_numbers(words[6].data());
        if (asked->numbers.empty()) return {};
    }
    return asked;
}

// The calls of all threads through their seats, and the line.
template <class SeatOfTable> void run_table(const TableAsked &asked, const char *kind, bool timed, std::vector<SeatOfTable> &seats) {
    auto work = [&](uint32_t from, uint32_t to) {
        return run_threads(asked.threads, [&](uint32_t thread) {
            SeatOfTable seat = std::move(seats[thread]); // off the others' cache lines
            Ran ran = make_calls(seat, asked, thread, from, to);
            new (&seats[thread]) SeatOfTable(std::move(seat));
            return ran;
        });
    };
    Ran filled = work(0, asked.filling).first;
    auto [ran, took] = work(asked.filling, asked.filling + asked.calls);
    printf("kind %s threads %u buckets %u keys %u ", kind, asked.threads, asked.buckets, asked.keys);
    printf("filled %llu ", (unsigned long long)asked.filling * asked.threads);
    print_counts(uint64_t(asked.calls) * asked.threads, {filled.done + ran.done, filled.changes + ran.changes}, timed, took);
}

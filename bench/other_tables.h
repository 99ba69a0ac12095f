// What a user would take in place of the shared table. With -DWITH_TBB the hash map of Intel's Threading Building Blocks is among them.
#pragma once
#include "table_calls.h"
#include <mutex>
#include <unordered_map>
#ifdef WITH_TBB
#include <tbb/concurrent_hash_map.h>
#endif

struct KeyHash {
    size_t operator()(const Key &key) const { return number_of(key); }
};

// Maps of the standard library, each behind a mutex; the key's hash says in which one it is.
class ShardedTable {
public:
    explicit ShardedTable(uint32_t buckets) : shards(SHARDS) {
        for (Shard &shard : shards) shard.map.reserve(buckets / SHARDS);
    }

    std::optional<Value> find(const Key &key) {
        Shard &shard = shard_of(key);
        std::lock_guard<std::mutex> held(shard.lock);
        auto place = shard.map.find(key);
        if (place == shard.map.end()) return {};
        return place->second;
    }

    Answer insert(const Key &key, const Value &value) {
        Shard &shard = shard_of(key);
        std::lock_guard<std::mutex> held(shard.lock);
        return shard.map.try_emplace(key, value).second ? Answer::done : Answer::there;
    }

    Answer replace(const Key &key, const Value &old, const Value &value) {
        Shard &shard = shard_of(key);
        std::lock_guard<std::mutex> held(shard.lock);
        auto place = shard.map.find(key);
        if (place == shard.map.end()) return Answer::absent;
        if (place->second != old) return Answer::there;
        place->second = value;
        return Answer::done;
    }

    Removed remove(const Key &key) {
        Shard &shard = shard_of(key);
        std::lock_guard<std::mutex> held(shard.lock);
        auto place = shard.map.find(key);
        if (place == shard.map.end()) return {Answer::absent, {}};
        Removed gone{Answer::done, place->second};
        shard.map.erase(place);
        return gone;
    }

private:
    static constexpr size_t SHARDS = 256;

    struct alignas(64) Shard {
        std::mutex lock;
        std::unordered_map<Key, Value, KeyHash> map;
    };

    // The low bits pick the place in a map, so others pick the map.
    Shard &shard_of(const Key &key) { return shards[number_of(key) >> 24 & (SHARDS - 1)]; }

    std::vector<Shard> shards;
};

#ifdef WITH_TBB
// The hash map of TBB: an accessor holds its pair's lock, for reading alone or for writing.
class TbbTable {
public:
    explicit TbbTable(uint32_t buckets) : map(buckets) {}

    std::optional<Value> find(const Key &key) {
        Map::const_accessor pair;
        if (!map.find(pair, key)) return {};
        return pair->second;
    }

    Answer insert(const Key &key, const Value &value) { return map.insert({key, value}) ? Answer::done : Answer::there; }

    Answer replace(const Key &key, const Value &old, const Value &value) {
        Map::accessor pair;
        if (!map.find(pair, key)) return Answer::absent;
        if (pair->second != old) return Answer::there;
        pair->second = value;
        return Answer::done;
    }

    Removed remove(const Key &key) {
        Map::accessor pair;
        if (!map.find(pair, key)) return {Answer::absent, {}};
        Removed gone{Answer::done, pair->second};
        map.erase(pair);
        return gone;
    }

private:
    struct Compare {
        static size_t hash(const Key &key) { return number_of(key); }
        static bool equal(const Key &a, const Key &b) { return a == b; }
    };
    using Map = tbb::concurrent_hash_map<Key, Value, Compare>;
    Map map;
};
#endif

// A thread's calls on such a table.
template <class Table> class CallerOfTable {
public:
    explicit CallerOfTable(Table &table) : table(table) {}

    std::optional<Value> find(const Key &key) { return table.find(key); }

    Answer insert(const Key &key, const Value &value) {
        Answer told = table.insert(key, value);
        changes += told == Answer::done;
        return told;
    }

    Answer replace(const Key &key, const Value &old, const Value &value) {
        Answer told = table.replace(key, old, value);
        changes += told == Answer::done && old != value;
        return told;
    }

    Removed remove(const Key &key) {
        Removed told = table.remove(key);
        changes += told.answer == Answer::done;
        return told;
    }

    uint64_t changes = 0;

private:
    Table &table;
};

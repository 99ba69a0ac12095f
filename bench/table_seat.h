// Finds, inserts, replaces and removes of keys by the steps of `cache_hash`, in plain C++.
#pragma once
#include "shared_object.h"
#include "table_calls.h"

enum class Way { found, end, moved };

// What a walk along the claimed chain came to: the record's place and its value, or the chain's length.
struct Walked {
    Way way;
    uint32_t place;
    Value value;
};

class TableSeat : public Seat {
public:
    TableSeat(Object &object, uint32_t threads, uint32_t buckets, uint32_t share, uint32_t thread)
        : Seat(object, threads, buckets, share, thread), buckets(buckets) {}

    // By the inline words where they are good and tell, else by a walk along the claimed chain.
    std::optional<Value> find(const Key &key) {
        uint32_t cell = bucket_of(key);
        if (READS_INLINE) {
            auto words = read_inline(cell);
            if (words && (is_last(*words) || has_key(*words, key))) {
                object.stand();
                if (has_record(*words) && has_key(*words, key)) return value_in(*words);
                return {};
            }
        }
        for (;;) {
            Walked walked = walk(cell, claim_node(cell), key);
            if (walked.way == Way::moved) continue;
            end_call();
            if (walked.way == Way::found) return walked.value;
            return {};
        }
    }

    Answer insert(const Key &key, const Value &value) {
        return change(key, [&](Turn &turn) {
            if (turn.walked.way == Way::found) return ends(Answer::there);
            if (!make_room(turn, turn.walked.place == 0 ? 1 : 2)) return ends(Answer::full);
            return installs(turn, copy_inserted(turn, record_of(key, value, 0)));
        });
    }

    Answer replace(const Key &key, const Value &old, const Value &value) {
        return change(key, [&](Turn &turn) {
            if (turn.walked.way == Way::end) return ends(Answer::absent);
            if (turn.walked.value != old) return ends(Answer::there);
            if (old == value) return ends(Answer::done);
            if (!make_room(turn, turn.walked.place + 1)) return ends(Answer::full);
            return installs(turn, copy_replaced(turn, value));
        });
    }

    // Gives the key the value of `merged`, which takes that there, or null; one change.
    template <class Merged> Answer update(const Key &key, const Merged &merged) {
        return change(key, [&](Turn &turn) {
            bool found = turn.walked.way == Way::found;
            Value value = merged(found ? &turn.walked.value : nullptr);
            if (found && value == turn.walked.value) return ends(Answer::done);
            if (!make_room(turn, found ? turn.walked.place + 1 : turn.walked.place == 0 ? 1 : 2)) return ends(Answer::full);
            return installs(turn, found ? copy_replaced(turn, value) : copy_inserted(turn, record_of(key, value, 0)));
        });
    }

    Removed remove(const Key &key) {
        Value gone{};
        Answer answer = change(key, [&](Turn &turn) {
            if (turn.walked.way == Way::end) return ends(Answer::absent);
            gone = turn.walked.value;
            if (!make_room(turn, std::max(turn.walked.place, uint32_t(1)))) return ends(Answer::full);
            return installs(turn, copy_removed(turn));
        });
        return {answer, gone};
    }

    // Brings near what calls on these keys load first: the buckets' backups, then a word of each node that is named, then one of each link.
    template <size_t COUNT> void load_ahead(const std::array<Key, COUNT> &keys, size_t count) {
        std::array<uint64_t, COUNT> nodes;
        for (size_t i = 0; i < count; i++) nodes[i] = object.peek_node(bucket_of(keys[i]));
        for (size_t i = 0; i < count; i++) nodes[i] = object.peek_next(nodes[i]) - 1;
        for (size_t i = 0; i < count; i++) object.peek_next(nodes[i]);
    }

private:
    // A turn of a change: what it began with and what its walk came to, and whether the call has scanned.
    struct Turn {
        uint32_t cell;
        bool scanned;
        Start start;
        Walked walked;
    };

    static Node record_of(const Key &key, const Value &value, uint64_t next) {
        Node words;
        std::copy_n(key.begin(), KEY_WORDS, words.begin());
        std::copy_n(value.begin(), VALUE_WORDS, words.begin() + KEY_WORDS);
        words[WIDTH] = next;
        return words;
    }

    static Node with_next(Node words, uint64_t next) {
        words[WIDTH] = next;
        return words;
    }

    static Value value_in(const Node &words) {
        Value value;
        std::copy_n(words.begin() + KEY_WORDS, VALUE_WORDS, value.begin());
        return value;
    }

    static bool has_key(const Node &words, const Key &key) { return words[0] == key[0] && words[1] == key[1]; }
    static bool has_record(const Node &words) { return words[WIDTH] != END; }
    static bool is_last(const Node &words) { return words[WIDTH] == END || words[WIDTH] == 0; }

    uint32_t bucket_of(const Key &key) const { return number_of(key) % buckets; }

    // Each turn finds the version, claims the bucket's node, walks, and goes on as asked; where that tells nothing, a further turn comes.
    template <class GoOn> Answer change(const Key &key, const GoOn &go_on) {
        Turn turn{bucket_of(key), false, {}, {}};
        for (;;) {
            turn.start = claim_versioned(turn.cell);
            noted.clear();
            turn.walked = walk(turn.cell, turn.start.word, key);
            if (turn.walked.way != Way::moved) {
                if (std::optional<Answer> told = go_on(turn)) return *told;
            }
            lost_tries++;
        }
    }

    // Scans where fewer nodes are free, at most once in a call.
    bool make_room(Turn &turn, size_t need) {
        if (free.size() < need && !turn.scanned) {
            scan();
            turn.scanned = true;
        }
        return free.size() >= need;
    }

    // Announces the link that the words go on to, and reads it where the bucket still names the claimed node.
    bool pass(uint32_t cell, uint64_t word, Node &words) {
        uint32_t link = words[WIDTH] - 1;
        announce(WALK, link);
        walks = true;
        if (object.recheck_load(cell) / 2 != word / 2) return false;
        words = read(link);
        return true;
    }

    Walked walk(uint32_t cell, uint64_t word, const Key &key) {
        Node words = read(word / 2);
        if (!has_record(words)) return {Way::end, 0, {}};
        for (uint32_t place = 0;; place++) {
            if (has_key(words, key)) return {Way::found, place, value_in(words)};
            if (words[WIDTH] == 0) return {Way::end, place + 1, {}};
            if (!pass(cell, word, words)) return {Way::moved, 0, {}};
        }
    }

    // As `pass`, for a change, which notes the link. Where the bucket names another node, no node is held.
    bool follow(const Turn &turn, Node &words) {
        uint32_t link = words[WIDTH] - 1;
        if (!pass(turn.cell, turn.start.word, words)) {
            put_back_all();
            return false;
        }
        noted.push_back(link);
        return true;
    }

    // The record before the claimed one, of which a copy goes behind it where it is one.
    uint32_t copy_inserted(const Turn &turn, Node record) {
        Node first = read(turn.start.node());
        if (has_record(first)) record[WIDTH] = put(first) + 1;
        return put(record);
    }

    // Copies the records before the place, each to a node that goes on to the next, and tells the first node. The last one is held last, and to be
    // filled; the words are then those of the record at the place.
    std::optional<uint32_t> copy_to(const Turn &turn, uint32_t place, Node &words) {
        words = read(turn.start.node());
        uint32_t head = take(), last = head;
        for (uint32_t i = 0; i < place; i++) {
            Node before = words;
            if (!follow(turn, words)) return {};
            uint32_t next = take();
            fill(last, with_next(before, next + 1));
            last = next;
        }
        return head;
    }

    std::optional<uint32_t> copy_replaced(const Turn &turn, const Value &value) {
        Node words;
        auto head = copy_to(turn, turn.walked.place, words);
        if (!head) return {};
        std::copy_n(value.begin(), VALUE_WORDS, words.begin() + KEY_WORDS);
        fill(held.back(), words);
        return head;
    }

    // Of a first record the one after it is copied, where there is one; else the record before goes on to what it went on to.
    std::optional<uint32_t> copy_removed(const Turn &turn) {
        uint32_t place = turn.walked.place;
        Node words;
        auto head = copy_to(turn, place == 0 ? 0 : place - 1, words);
        if (!head) return {};
        Node after = words;
        if (place == 0 && words[WIDTH] == 0) {
            after = with_next({}, END);
        } else if (!follow(turn, after)) {
            return {};
        }
        fill(held.back(), place == 0 ? after : with_next(words, after[WIDTH]));
        return head;
    }

    // Installs the new front, where there is one; nothing is told where another thread's change came before.
    std::optional<Answer> installs(const Turn &turn, std::optional<uint32_t> head) {
        if (!head) return {};
        if (!install(turn.cell, turn.start, *head)) {
            put_back_all();
            return {};
        }
        clear_walk();
        release(BACK);
        return Answer::done;
    }

    void end_call() {
        clear_walk();
        answer();
    }

    std::optional<Answer> ends(Answer told) {
        end_call();
        return told;
    }

    uint32_t buckets;
};

// Loads, stores and compare-and-swaps of registers by the steps of `big_atomic`, in plain C++.
#pragma once
#include "register_calls.h"
#include "shared_object.h"

class RegisterSeat : public Seat {
public:
    using Seat::Seat;

    // The inline words where they are good, else those of the claimed node.
    Rec load(uint32_t reg) {
        if (READS_INLINE) {
            if (auto words = read_inline(reg)) {
                object.stand();
                return record_in(*words);
            }
        }
        Rec record = read_record(claim_node(reg) / 2);
        answer();
        return record;
    }

    // Each turn finds the version, claims the node and reads it; then the new record's node is announced, exchanged and copied inline.
    bool store(uint32_t reg, const Rec &record) {
        for (;;) {
            Start start = claim_versioned(reg);
            if (read_record(start.node()) == record) {
                put_back_all();
                answer();
                return true;
            }
            if (held.empty() && !fill_node(record)) {
                answer();
                return false;
            }
            if (install(reg, start, held.back())) {
                release(BACK);
                return true;
            }
            if (!KEEPS_NODE) put_back_all();
        }
    }

    // One look and one exchange; where either is lost the register was another one, and the answer is no.
    Swap compare_and_swap(uint32_t reg, const Rec &old, const Rec &record) {
        Start start;
        start.version = object.version_load(reg);
        start.word = object.backup_load(reg);
        if (!claim_once(reg, start.word) || read_record(start.node()) != old) return ends(Swap::no);
        if (old == record) return ends(Swap::yes);
        if (!fill_node(record)) return ends(Swap::full);
        if (install(reg, start, held.back())) {
            release(BACK);
            return Swap::yes;
        }
        put_back_all();
        return ends(Swap::no);
    }

private:
    static Rec record_in(const Node &words) {
        Rec record;
        std::copy_n(words.begin(), WIDTH, record.begin());
        return record;
    }

    Rec read_record(uint32_t node) { return record_in(read(node)); }

    // Takes a node and fills it; scans first where none is free, and tells whether one was.
    bool fill_node(const Rec &record) {
        if (free.empty()) scan();
        if (free.empty()) return false;
        Node words{};
        std::copy_n(record.begin(), WIDTH, words.begin());
        put(words);
        return true;
    }

    Swap ends(Swap told) {
        answer();
        return told;
    }
};

// A plain C++ program that makes the calls of `table_speed` by the same steps: the yardstick of its speed.
//   g++ -O2 -std=c++17 -pthread -o table table.cpp      options: shared_object.h
//   table [time] THREADS BUCKETS KEYS CALLS SHARE find|insert|mix|sum|few [FILE]
#include "table_seat.h"

static void run(const TableAsked &asked, const char *kind, bool timed) {
    if (uint64_t(asked.threads) * asked.share + asked.buckets > MOST_NODES) {
        printf("no room for the table\n");
        return;
    }
    Object object(asked.threads, asked.buckets, asked.share, END);
    std::vector<TableSeat> seats;
    for (uint32_t thread = 0; thread < asked.threads; thread++) seats.emplace_back(object, asked.threads, asked.buckets, asked.share, thread);
    run_table(asked, kind, timed, seats);
}

int main(int argc, char **argv) {
    bool timed;
    std::vector<std::string_view> words = words_of(argc, argv, 1, timed);
    auto asked = read_table_asked(words, "table [time] THREADS BUCKETS KEYS CALLS SHARE find|insert|mix|sum|few [FILE]");
    if (asked) run(*asked, words[5].data(), timed);
}

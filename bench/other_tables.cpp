// The calls of `table_speed` on tables of the forms that a user would take instead.
//   g++ -O2 -std=c++17 -pthread -o other_tables other_tables.cpp
//   g++ -O2 -std=c++17 -pthread -DWITH_TBB -o other_tables other_tables.cpp -ltbb      with libtbb-dev
//   other_tables sharded|tbb [time] THREADS BUCKETS KEYS CALLS SHARE find|insert|mix|sum|few [FILE]
// SHARE is not looked at, and BUCKETS are reserved at the start. The line is that of `table`.
#include "other_tables.h"

constexpr const char *USAGE = "other_tables sharded|tbb [time] THREADS BUCKETS KEYS CALLS SHARE find|insert|mix|sum|few [FILE]";

template <class Table> void run(const TableAsked &asked, const char *kind, bool timed) {
    Table table(asked.buckets);
    std::vector<CallerOfTable<Table>> callers(asked.threads, CallerOfTable<Table>(table));
    work_beside_a_thread([&] { run_table(asked, kind, timed, callers); });
}

int main(int argc, char **argv) {
    bool timed;
    std::vector<std::string_view> words = words_of(argc, argv, 2, timed);
    auto asked = read_table_asked(words, USAGE);
    if (!asked) return 0;
    std::string_view form = argv[1];
    const char *kind = words[5].data();
    if (form == "sharded") {
        run<ShardedTable>(*asked, kind, timed);
#ifdef WITH_TBB
    } else if (form == "tbb") {
        run<TbbTable>(*asked, kind, timed);
#endif
    } else {
        printf("%s\n", USAGE);
    }
}

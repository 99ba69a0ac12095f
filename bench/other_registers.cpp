// The calls of `register_speed` on registers of the forms that a user would take instead.
//   g++ -O2 -std=c++17 -pthread -o other_registers other_registers.cpp -latomic
//   other_registers mutex|spin|seqlock|atomic|own [time] THREADS REGISTERS CALLS SHARE load|store|few|mix [FILE]
// SHARE is not looked at. The line is that of `registers`. With `own` each thread has registers of its own.
#include "other_registers.h"
#include <deque>

constexpr const char *USAGE = "other_registers mutex|spin|seqlock|atomic|own [time] THREADS REGISTERS CALLS SHARE load|store|few|mix [FILE]";

template <class Registers> void run(const RegistersAsked &asked, const char *kind, bool timed) {
    Registers registers(asked.registers);
    work_beside_a_thread([&] { run_registers(asked, kind, timed, [&](uint32_t) { return CallerOfRegisters<Registers>(registers); }); });
}

void run_apart(const RegistersAsked &asked, const char *kind, bool timed) {
    std::deque<OwnRegisters> registers;
    for (uint32_t thread = 0; thread < asked.threads; thread++) registers.emplace_back(asked.registers);
    work_beside_a_thread([&] { run_registers(asked, kind, timed, [&](uint32_t thread) { return CallerOfRegisters<OwnRegisters>(registers[thread]); }); });
}

int main(int argc, char **argv) {
    bool timed;
    std::vector<std::string_view> words = words_of(argc, argv, 2, timed);
    auto asked = read_registers_asked(words, USAGE);
    if (!asked) return 0;
    std::string_view form = argv[1];
    const char *kind = words[4].data();
    if (form == "mutex") {
        run<LockedRegisters<std::mutex>>(*asked, kind, timed);
    } else if (form == "spin") {
        run<LockedRegisters<SpinLock>>(*asked, kind, timed);
    } else if (form == "seqlock") {
        run<SeqlockRegisters>(*asked, kind, timed);
    } else if (form == "atomic") {
        run<AtomicRegisters>(*asked, kind, timed);
    } else if (form == "own") {
        run_apart(*asked, kind, timed);
    } else {
        printf("%s\n", USAGE);
    }
}

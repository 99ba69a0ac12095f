// A plain C++ program that makes the calls of `register_speed` by the same steps: the yardstick of its speed.
//   g++ -O2 -std=c++17 -pthread -o registers registers.cpp      options: shared_object.h
//   registers [time] THREADS REGISTERS CALLS SHARE load|store|few|mix [FILE]
#include "register_seat.h"

static void run(const RegistersAsked &asked, const char *kind, bool timed) {
    if (uint64_t(asked.threads) * asked.share + asked.registers > MOST_NODES) {
        printf("no room for the object\n");
        return;
    }
    Object object(asked.threads, asked.registers, asked.share, 0);
    std::vector<RegisterSeat> seats;
    for (uint32_t thread = 0; thread < asked.threads; thread++) seats.emplace_back(object, asked.threads, asked.registers, asked.share, thread);
    run_registers(asked, kind, timed, [&](uint32_t thread) { return std::move(seats[thread]); });
}

int main(int argc, char **argv) {
    bool timed;
    std::vector<std::string_view> words = words_of(argc, argv, 1, timed);
    auto asked = read_registers_asked(words, "registers [time] THREADS REGISTERS CALLS SHARE load|store|few|mix [FILE]");
    if (asked) run(*asked, words[4].data(), timed);
}

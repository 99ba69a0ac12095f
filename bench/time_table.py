#!/usr/bin/env python3
"""Times table_speed beside table.cpp, and prints a table of the best runs.

usage: time_table.py [--calls N] [--runs N] [--compiler NAME] [--define NAME]..

Both programs make the same calls with the same stream files, in turn. The proved program is
crates/table_speed/out/table_speed, which `rt run` leaves there.
"""
import argparse
import tempfile

from programs import NUMBERS_A_THREAD, THREADS, add_options, compile_plain, proved_program, speed_of, told_by
from write_stream import SHAPES, write_stream

KINDS = ("find", "insert", "mix", "sum")
# keys, buckets and nodes of each thread: no call is ever short of nodes
SIZES = ((1_000, 1 << 10, 4_096), (1_000_000, 1 << 20, 1 << 21))


def run_once(program: str, words: list[str]) -> float:
    """Million timed calls a second. A line with other calls than were asked ends the script."""
    line, told = told_by([program], words)
    calls = int(told["calls"])
    if calls != int(words[0]) * int(words[3]) or int(told["done"]) != calls + int(told["filled"]):
        raise SystemExit(f"{program} {' '.join(words)}: {line}")
    return speed_of(told)


def best_of(programs: list[str], words: list[str], runs: int) -> list[float]:
    """The best speed of each program, run in turn."""
    best = [0.0] * len(programs)
    for _ in range(runs):
        for place, program in enumerate(programs):
            best[place] = max(best[place], run_once(program, words))
    return best


def main() -> None:
    words = argparse.ArgumentParser(description=__doc__.split("\n")[0])
    words.add_argument("--calls", type=int, default=1_000_000, help="timed calls of each thread")
    words.add_argument("--runs", type=int, default=5)
    add_options(words)
    asked = words.parse_args()
    print("| keys | stream | calls | " + " | ".join(f"{n} threads, proved | {n} threads, C++" for n in THREADS) + " |")
    print("|" + "---|" * (3 + 2 * len(THREADS)))
    with tempfile.TemporaryDirectory() as folder:
        programs = [proved_program("table_speed"), compile_plain(folder, "table", asked)]
        for keys, buckets, share in SIZES:
            for shape in SHAPES:
                stream = f"{folder}/{shape}"
                write_stream(stream, min(asked.calls, NUMBERS_A_THREAD) * max(THREADS), keys, shape)
                for kind in KINDS:
                    speeds = []
                    for threads in THREADS:
                        sizes = [str(n) for n in (threads, buckets, keys, asked.calls, share)]
                        speeds += best_of(programs, [*sizes, kind, stream], asked.runs)
                    print(f"| {keys:,} | {shape} | {kind} | " + " | ".join(f"{speed:.1f}" for speed in speeds) + " |", flush=True)


if __name__ == "__main__":
    main()

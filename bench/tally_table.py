#!/usr/bin/env python3
"""Times tallies by 1, 2 and 4 workers over a uniform and a Zipf export, and prints a table of medians.

usage: tally_table.py [--before PROGRAM] [--now PROGRAM] [--megabytes N] [--flows N] [--runs N] [--huge] [--without-nfdump]
                      [--exports FOLDER] [--compiler NAME]

The rows: the program before, where --before has its path; the proved program, which is the one that
`rt run` leaves in crates/flow_tally/out unless --now has another path; the same plan in C++, with
and without what brings words near (tally.cpp: -DAHEAD and -DRECLAIM); the same in another layout, that the proved one may not take (-DAPART
-DNO_STAND); a private map of one thread; and nfdump's aggregation by the same seven fields over its own file (nfdump 1.7, with nfcapd, by UDP port
9995). All run in turn, and all but nfdump and the program before have to write the same report. Then comes what the proved program takes beside the others, and how many
looks and turns were lost in C++. With --huge the C library asks for large pages (GLIBC_TUNABLES=glibc.malloc.hugetlb=1), for all programs.
"""
import argparse
import os
import subprocess
import tempfile

from programs import proved_program
from tally_runs import (SHAPES, WORKERS, Program, keep_by_nfdump, load_of_machine, medians, nfdump, plain, proved,
                        run_seconds, same_report, write_exports)

NEAR = ["-DSHARED", "-DAHEAD", "-DRECLAIM"]
BEFORE, NOW, WITH, WITHOUT, APART, PRIVATE = (
    "proved, before", "proved", "C++, same plan", "C++, nothing brought near",
    "C++, claim words in lines of their own, a stand loads nothing", "C++, private unordered_map, sorted")


def programs(asked: argparse.Namespace, folder: str) -> list[Program]:
    # (an earlier program may have written another report)
    found = [proved(BEFORE, asked.before)._replace(tells_all=False)] if asked.before else []
    found.append(proved(NOW, asked.now or proved_program("flow_tally")))
    for name, options in ((WITH, NEAR), (WITHOUT, ["-DSHARED"]), (APART, [*NEAR, "-DAPART", "-DNO_STAND"]), (PRIVATE, ["-DHASHED"])):
        found.append(plain(folder, name, options, asked.compiler))
    return found if asked.without_nfdump else [*found, nfdump()]


def measure(all_programs: list[Program], files: dict, kept: dict, asked: argparse.Namespace, folder: str) -> dict:
    """The median seconds of each program, shape and number of workers."""
    times: dict = {}
    for _ in range(asked.runs):
        for shape in SHAPES:
            for program in all_programs:
                for workers in program.workers:
                    other = f"{folder}/other"
                    took = run_seconds(program, workers, files[shape], kept.get(shape, ""), other)
                    same_report(f"{folder}/report_{shape}", other, program)
                    times.setdefault((program.name, shape, workers), []).append(took)
    return medians(times)


def print_table(middle: dict, all_programs: list[Program]) -> None:
    heads = [f"{shape}, {workers}" for shape in SHAPES for workers in WORKERS]
    print("| program | " + " | ".join(heads) + " |")
    print("|" + "---|" * (1 + len(heads)))
    for program in all_programs:
        cells = [f"{middle[program.name, shape, w]:.3f} s" if w in program.workers else "" for shape in SHAPES for w in WORKERS]
        print(f"| {program.name} | " + " | ".join(cells) + " |")


def print_beside(middle: dict, all_programs: list[Program]) -> None:
    """The proved program's time by each other one's: by that of one thread where it runs with no more."""
    print("\n| the proved program's time by that of | " + " | ".join(f"{shape}, {w}" for shape in SHAPES for w in WORKERS) + " |")
    print("|" + "---|" * (1 + len(SHAPES) * len(WORKERS)))
    for program in all_programs:
        if program.name == NOW:
            continue
        cells = [middle[NOW, shape, w] / middle[program.name, shape, w if w in program.workers else 1] for shape in SHAPES for w in WORKERS]
        print(f"| {program.name} | " + " | ".join(f"{cell:.2f}" for cell in cells) + " |")
    for fewer, more in ((1, 2), (2, 4)):
        cells = [f"{shape} {middle[NOW, shape, more] / middle[NOW, shape, fewer]:.2f}" for shape in SHAPES]
        print(f"\n{more} workers by {fewer}: {', '.join(cells)}")


def print_lost(files: dict, asked: argparse.Namespace, folder: str) -> None:
    """How many looks and turns of the plan in C++ were lost, a run after the other."""
    telling = plain(folder, "telling", [*NEAR, "-DTELL"], asked.compiler)
    for shape in SHAPES:
        for workers in WORKERS[1:]:
            lost = []
            for _ in range(asked.runs):
                words = [telling.words[0], files[shape], str(workers)]
                told = subprocess.run(words, check=True, stdout=subprocess.DEVNULL, stderr=subprocess.PIPE, text=True).stderr
                numbers = dict(line.split() for line in told.splitlines())
                lost.append(f"{numbers['lost_looks']} and {numbers['lost_tries']}")
            print(f"\nlost looks and turns in C++, {shape}, {workers} workers: {', '.join(lost)}")


def main() -> None:
    words = argparse.ArgumentParser(description=__doc__.split("\n")[0])
    words.add_argument("--before", default="", metavar="PROGRAM")
    words.add_argument("--now", default="", metavar="PROGRAM")
    words.add_argument("--megabytes", type=int, default=64)
    words.add_argument("--flows", type=int, default=64_000)
    words.add_argument("--exports", metavar="FOLDER", help="where the exports stand, or are left")
    words.add_argument("--runs", type=int, default=5)
    words.add_argument("--huge", action="store_true")
    words.add_argument("--without-nfdump", action="store_true")
    words.add_argument("--compiler", default="g++")
    asked = words.parse_args()
    if asked.huge:
        os.environ["GLIBC_TUNABLES"] = "glibc.malloc.hugetlb=1"
    with tempfile.TemporaryDirectory() as folder:
        files = write_exports(asked.exports or folder, asked.megabytes, asked.flows)
        kept = {} if asked.without_nfdump else {shape: keep_by_nfdump(file, f"{folder}/kept_{shape}") for shape, file in files.items()}
        all_programs = programs(asked, folder)
        print(f"load of the machine before: {load_of_machine()}; {'large' if asked.huge else 'usual'} pages; medians of {asked.runs}\n")
        middle = measure(all_programs, files, kept, asked, folder)
        print_table(middle, all_programs)
        print_beside(middle, all_programs)
        print_lost(files, asked, folder)


if __name__ == "__main__":
    main()

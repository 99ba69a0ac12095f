#!/usr/bin/env python3
"""Counts the instructions of a call, by the proved programs and by the same steps in C++: what a loaded machine doesn't change.

usage: instructions.py [--before TOP] [--calls N] [--compiler NAME] [--define NAME]..

By valgrind's callgrind each program runs with one thread and two numbers of calls, N (10,000) apart, and the instructions of a call are the difference by
N. TOP is an earlier checkout, with what `rt run` left in crates/register_speed/out and crates/table_speed/out.
"""
import argparse
import pathlib
import re
import subprocess
import tempfile

from programs import TOP, add_options, compile_plain, proved_program

FIRST = 2_000  # calls of the shorter run
# What is counted, the proved program, the yardstick, and the words of both.
KINDS = (
    ("load", "register_speed", "registers", ["1", "16", "CALLS", "20000", "load"]),
    ("store", "register_speed", "registers", ["1", "16", "CALLS", "20000", "store"]),
    ("load and compare-and-swap in turn", "register_speed", "registers", ["1", "16", "CALLS", "20000", "mix"]),
    ("find of a key in turn of 1,000, half of them there", "table_speed", "table", ["1", "1024", "1000", "CALLS", "4096", "find"]),
    ("insert answered Present, 1,000 keys", "table_speed", "table", ["1", "1024", "1000", "CALLS", "4096", "insert"]),
    ("insert of a new key, 16,000 keys in 16,381 buckets", "table_speed", "table", ["1", "16381", "16000", "CALLS", "40000", "insert"]),
    ("find and replace by a sum in turn", "table_speed", "table", ["1", "1024", "1000", "CALLS", "20000", "sum"]),
)


def counted(program: str, words: list[str], calls: int) -> int:
    """The instructions of a whole run."""
    placed = [str(calls) if word == "CALLS" else word for word in words]
    told = subprocess.run(["valgrind", "--tool=callgrind", "--callgrind-out-file=/dev/null", program, *placed], check=True,
                          stdout=subprocess.DEVNULL, stderr=subprocess.PIPE, text=True).stderr
    return int(re.search(r"Collected : (\d+)", told)[1])


def of_a_call(program: str, words: list[str], calls: int) -> float:
    return (counted(program, words, FIRST + calls) - counted(program, words, FIRST)) / calls


def main() -> None:
    words = argparse.ArgumentParser(description=__doc__.split("\n")[0])
    words.add_argument("--before", metavar="TOP", help="an earlier checkout")
    words.add_argument("--calls", type=int, default=10_000)
    add_options(words)
    asked = words.parse_args()
    tops = ([("proved, before", pathlib.Path(asked.before))] if asked.before else []) + [("proved", TOP)]
    with tempfile.TemporaryDirectory() as folder:
        plain = {name: compile_plain(folder, name, asked) for name in ("registers", "table")}
        print("| instructions of a call | " + " | ".join(name for name, _ in tops) + " | C++, same steps |")
        print("|" + "---|" * (2 + len(tops)))
        for name, proved, yardstick, run in KINDS:
            programs = [*(proved_program(proved, top) for _, top in tops), plain[yardstick]]
            cells = [f"{of_a_call(program, run, asked.calls):,.0f}" for program in programs]
            print(f"| {name} | " + " | ".join(cells) + " |", flush=True)


if __name__ == "__main__":
    main()

#!/usr/bin/env python3
"""Times the proved programs of two checkouts in turn, and prints how fast the second one's are beside the first one's.

usage: before_after.py BEFORE AFTER [--runs N] [--calls N] [--megabytes N] [--percent N] [--only WORD]

BEFORE and AFTER are the tops of checkouts; their crates/register_speed/out/register_speed, crates/table_speed/out/table_speed and
crates/flow_tally/out/flow_tally are what `rt run` leaves there. Both make the same calls with the same files, in turn, first the one and then the
other, and the best of the runs counts. A line has the speed of each and the second one's by the first one's; SLOWER where that is below 1 by more
than --percent (3). --only leaves out the lines without this word.
"""
import argparse
import filecmp
import pathlib
import subprocess
import tempfile
import time
from typing import Callable, NamedTuple

from programs import NUMBERS_A_THREAD, TOP, proved_program, speed_of, told_by
from write_stream import write_stream

THREADS = (1, 4)
REGISTERS, KEYS, BUCKETS, SHARE = 16, 10_000, 16_381, 1 << 16
REGISTER_KINDS = ("load", "store", "mix")
TABLE_KINDS = ("find", "insert", "mix", "sum")
FLOWS = 10_000


class Line(NamedTuple):
    """What is timed: its name, the unit of its speed, and how one program's speed is taken."""
    name: str
    unit: str
    speed: Callable[[str], float]
    program: str


def speed_of_calls(words: list[str]) -> Callable[[str], float]:
    """Million timed calls a second. A line with other calls than were asked ends the script."""
    def speed(program: str) -> float:
        line, told = told_by([program], words)
        if "calls" not in told or int(told["done"]) != int(told["calls"]) + int(told.get("filled", 0)):
            raise SystemExit(f"{program} {' '.join(words)}: {line}")
        return speed_of(told)

    return speed


def speed_of_tally(file: str, megabytes: int, workers: int, folder: str) -> Callable[[str], float]:
    """Megabytes a second of a whole run. Another report than that of the first run ends the script."""
    first, other = pathlib.Path(folder) / "first", pathlib.Path(folder) / "other"

    def speed(program: str) -> float:
        with open(other, "wb") as report:
            start = time.monotonic()
            subprocess.run([program, "tally", "--workers", str(workers), file], check=True, stdout=report)
            took = time.monotonic() - start
        if not first.exists():
            other.replace(first)
        elif not filecmp.cmp(first, other, shallow=False):
            raise SystemExit(f"{program}: another report")
        return megabytes / took

    return speed


def lines_of(asked: argparse.Namespace, folder: str) -> list[Line]:
    """All that is timed; the files that it reads are written."""
    registers, keys, export = f"{folder}/registers", f"{folder}/keys", f"{folder}/export"
    count = min(asked.calls, NUMBERS_A_THREAD) * max(THREADS)
    write_stream(registers, count, REGISTERS, "uniform")
    write_stream(keys, count, KEYS, "uniform")
    subprocess.run(["python3", str(TOP / "bench/write_export.py"), export, str(asked.megabytes), str(FLOWS)], check=True)
    lines = []
    for kind in REGISTER_KINDS:
        for threads in THREADS:
            words = [*(str(n) for n in (threads, REGISTERS, asked.calls, SHARE)), kind, registers]
            lines.append(Line(f"registers {kind} threads {threads}", "million calls", speed_of_calls(words), "register_speed"))
    for kind in TABLE_KINDS:
        for threads in THREADS:
            words = [*(str(n) for n in (threads, BUCKETS, KEYS, asked.calls, SHARE)), kind, keys]
            lines.append(Line(f"table {kind} threads {threads}", "million calls", speed_of_calls(words), "table_speed"))
    for workers in THREADS:
        speed = speed_of_tally(export, asked.megabytes, workers, folder)
        lines.append(Line(f"tally workers {workers}", "megabytes", speed, "flow_tally"))
    return [line for line in lines if asked.only in line.name]


def best_of_both(line: Line, asked: argparse.Namespace) -> tuple[float, float]:
    """The best speeds of both programs, run in turn."""
    before, after = (proved_program(line.program, pathlib.Path(top)) for top in (asked.before, asked.after))
    best = [0.0, 0.0]
    for _ in range(asked.runs):
        for place, program in enumerate((before, after)):
            best[place] = max(best[place], line.speed(program))
    return best[0], best[1]


def asked_words() -> argparse.Namespace:
    words = argparse.ArgumentParser(description=__doc__.split("\n")[0])
    words.add_argument("before")
    words.add_argument("after")
    words.add_argument("--runs", type=int, default=5)
    words.add_argument("--calls", type=int, default=1_000_000, help="timed calls of each thread")
    words.add_argument("--megabytes", type=int, default=32, help="of the export that is tallied")
    words.add_argument("--percent", type=float, default=3, help="how much slower is told")
    words.add_argument("--only", default="", metavar="WORD")
    return words.parse_args()


def main() -> None:
    asked = asked_words()
    slower = 0
    with tempfile.TemporaryDirectory() as folder:
        for line in lines_of(asked, folder):
            before, after = best_of_both(line, asked)
            is_slower = after < before * (1 - asked.percent / 100)
            slower += is_slower
            told = f"{line.name}: before {before:.2f}, after {after:.2f} {line.unit} a second, ratio {after / before:.3f}"
            print(told + (" SLOWER" if is_slower else ""), flush=True)
    print(f"{slower} slower by more than {asked.percent:g} percent")


if __name__ == "__main__":
    main()

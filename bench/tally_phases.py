#!/usr/bin/env python3
"""Tells what the phases of a tally's run take, by 1 and 4 workers, for one record and for a large export: a table of median milliseconds.

usage: tally_phases.py [--program PROGRAM] [--megabytes N] [--flows N] [--runs N] [--huge] [--exports FOLDER]

The program is the one that `rt run` leaves in crates/flow_tally/out unless --program has another path. phases.c is loaded before it, and notes when
it takes and gives memory, reads, writes, and starts and joins threads; that is all that is known of it. A phase ends where the next one begins:

  start         the process begins, up to the first instruction after its libraries are loaded
  read, decode  up to the read that finds the end of the file
  build         up to the first block of a seat's list of nodes
  split         up to the first thread; by one worker, up to the longest time without a call after the last block of a list
  workers       up to the last join; by one worker, that longest time
  close, sort   up to the block that the report is written in: the last one before the write
  report        up to the end of the write
  end           memory is given back, up to the call by which the process ends
  whole run     of another run without notes, in turn with the first one: the system's own end of the process stands in it alone

By one worker a few small blocks are taken between the split and the calls, and where there is one record some of them count as workers: microseconds.
"""
import argparse
import os
import statistics
import subprocess
import tempfile
import time
from typing import NamedTuple

from programs import TOP, proved_program
from tally_runs import SHAPES, load_of_machine, write_exports

MOST_FLOWS = 65_536  # of a tally where none are asked for
NEAR_SIZE = 4096     # a block's size may be so much more than what stands in it
PHASES = ("start", "read, decode", "build", "split", "workers", "close, sort", "report", "end", "whole run")


class Note(NamedTuple):
    """A call: when it came, in milliseconds of the monotonic clock, its name, and its bytes."""
    at: float
    name: str
    size: int


def notes_of(told: str) -> list[Note]:
    return [Note(float(at), name, int(size)) for at, name, size in (line.split() for line in told.splitlines())]


def last_place(notes: list[Note], name: str, before: int) -> int:
    return max(place for place, note in enumerate(notes[:before]) if note.name == name)


def lists_of(notes: list[Note], workers: int) -> list[int]:
    """The places of the calls that take the blocks of the seats' lists, of which the first one has room for all nodes."""
    share = 4 * (2 * MOST_FLOWS + 4 * workers + 1)
    sizes = {share, share * workers}
    found = [place for place, note in enumerate(notes) if note.name == "malloc" and any(0 <= note.size - size < NEAR_SIZE for size in sizes)]
    if not found:
        raise SystemExit("no block of a seat's list was noted")
    return found


def working(notes: list[Note], from_place: int, to_place: int) -> tuple[float, float]:
    """When the workers began and ended."""
    begun = [note.at for note in notes if note.name == "create"]
    if begun:
        return begun[0], [note.at for note in notes if note.name == "joined"][-1]
    pairs = zip(notes[from_place:to_place], notes[from_place + 1:to_place + 1])
    return max(((one.at, next_one.at) for one, next_one in pairs), key=lambda gap: gap[1] - gap[0])


def phases_of(notes: list[Note], workers: int, started: float) -> dict:
    write = max(place for place, note in enumerate(notes) if note.name == "write")
    read_end = last_place(notes, "read", write)
    lists = lists_of(notes, workers)
    report = last_place(notes, "malloc", write)
    begun, ended = working(notes, lists[-1], report)
    places = [notes[place].at for place in (0, read_end, lists[0])]
    times = [started, *places, begun, ended, notes[report].at, notes[write + 1].at, notes[-1].at]
    return dict(zip(PHASES, (later - earlier for earlier, later in zip(times, times[1:]))))


def run_noted(program: str, shim: str, workers: int, file: str) -> dict:
    """The phases of one run, and the time of another one without notes."""
    environment = dict(os.environ, LD_PRELOAD=shim)
    words = [program, "tally", "--workers", str(workers), file]
    start = time.monotonic()
    subprocess.run(words, check=True, stdout=subprocess.DEVNULL)
    whole = 1e3 * (time.monotonic() - start)
    started = 1e3 * time.monotonic()
    told = subprocess.run(words, check=True, stdout=subprocess.DEVNULL, stderr=subprocess.PIPE, text=True, env=environment).stderr
    return {**phases_of(notes_of(told), workers, started), "whole run": whole}


def main() -> None:
    words = argparse.ArgumentParser(description=__doc__.split("\n")[0])
    words.add_argument("--program", default="")
    words.add_argument("--megabytes", type=int, default=64)
    words.add_argument("--flows", type=int, default=64_000)
    words.add_argument("--exports", metavar="FOLDER", help="where the exports stand, or are left")
    words.add_argument("--runs", type=int, default=5)
    words.add_argument("--huge", action="store_true")
    asked = words.parse_args()
    if asked.huge:
        os.environ["GLIBC_TUNABLES"] = "glibc.malloc.hugetlb=1"
    program = asked.program or proved_program("flow_tally")
    with tempfile.TemporaryDirectory() as folder:
        shim = f"{folder}/phases.so"
        subprocess.run(["gcc", "-O2", "-shared", "-fPIC", "-o", shim, str(TOP / "bench/phases.c")], check=True)
        files = {"one record": str(TOP / "crates/flow_tally/data/one_record.nf5"), **write_exports(asked.exports or folder, asked.megabytes, asked.flows)}
        print(f"load of the machine before: {load_of_machine()}; {'large' if asked.huge else 'usual'} pages; medians of {asked.runs}, milliseconds\n")
        print("| input | workers | " + " | ".join(PHASES) + " |")
        print("|" + "---|" * (2 + len(PHASES)))
        for name in ("one record", *SHAPES):
            for workers in (1, 4):
                runs = [run_noted(program, shim, workers, files[name]) for _ in range(asked.runs)]
                cells = [f"{statistics.median(run[phase] for run in runs):.1f}" for phase in PHASES]
                print(f"| {name} | {workers} | " + " | ".join(cells) + " |", flush=True)


if __name__ == "__main__":
    main()

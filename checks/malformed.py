#!/usr/bin/env python3
"""Files of datagrams with faults in them, and a tally of each, which must end as the reader says.

usage: checks/malformed.py [--cases N] [--seed S] [--first I] [PROGRAM]

Takes the cases I to I + N - 1 that are drawn from the seed. A case that fails stays as a folder with its files
and a file `command`, which shows it again; the folder is told.
"""
import argparse
import os
import random
import shlex
import sys
import tempfile

sys.dont_write_bytecode = True
import fold
import reader
from running import Checks, built_program

GATE_CASES = 2_000
GATE_SEED = 5
WELL_FORMED = fold.datagram([fold.record(0x0A000001, 0x0A000002, 1, 12, 3400, 1000, 2000, 1234, 80, 6, 0)])
CUTS = 2 * len(WELL_FORMED) + 1  # the first cases: two datagrams cut at each byte


def starts_of(data: bytes) -> list:
    """Where the datagrams of a well-formed file begin."""
    found, at = [], 0
    while at < len(data):
        found.append(at)
        at += 24 + 48 * int.from_bytes(data[at + 2:at + 4], "big")
    return found


def with_bytes(data: bytes, at: int, new: bytes) -> bytes:
    return data[:at] + new + data[at + len(new):]


def with_number(choose: random.Random, data: bytes, at: int, usual: tuple) -> bytes:
    """Another number of two bytes stands there: a usual one, any one, or the old one with a bit flipped."""
    old = int.from_bytes(data[at:at + 2], "big")
    new = choose.choice((choose.choice(usual), choose.getrandbits(16), old ^ 1 << choose.randrange(16)))
    return with_bytes(data, at, new.to_bytes(2, "big"))


def with_fault(choose: random.Random, data: bytes, starts: list) -> bytes:
    """The file with one fault more, or with what may be one; `starts` are places where its datagrams began."""
    kind, start = choose.randrange(7), min(choose.choice(starts), max(0, len(data) - 4))
    if kind == 0 or len(data) < 4:
        return data[:choose.randrange(len(data) + 1)]
    if kind == 1:
        return with_number(choose, data, start, (0, 1, 4, 6, 9, 10, 0x0500, 0xFFFF))
    if kind == 2:
        return with_number(choose, data, start + 2, (0, 1, 29, 30, 31, 32, 0x0100, 0xFFFF))
    if kind == 3:
        count = int.from_bytes(data[start + 2:start + 4], "big") + choose.choice((-1, 1))
        return with_bytes(data, start + 2, (count % 65536).to_bytes(2, "big"))
    if kind == 4:
        return data + choose.randbytes(choose.randrange(1, 80))
    at = choose.randrange(len(data)) if choose.random() < 0.5 else start
    return data[:at] + data[at + 1:] if kind == 5 else data[:at] + choose.randbytes(1) + data[at:]


def drawn_file(choose: random.Random, keys: list, faults: int) -> bytes:
    data = fold.export(choose, choose.sample(keys, choose.randrange(1, 9)), choose.choice((1, 2, 10, 31, 60, 100)))
    starts = starts_of(data)
    for _ in range(faults):
        data = with_fault(choose, data, starts)
    return data


def drawn_case(seed: int, number: int) -> tuple:
    """The files of a case and the number of flows that they may have."""
    if number < CUTS:
        return [(2 * WELL_FORMED)[:number]], 1
    choose = random.Random(f"{seed} {number}")
    keys = [fold.random_key(choose) for _ in range(12)]
    faults = [0] * choose.choice((1, 2, 2, 3))
    for _ in range(choose.choice((0, 1, 1, 1, 2, 2, 3, 3))):
        faults[choose.randrange(len(faults))] += 1
    return [drawn_file(choose, keys, count) for count in faults], choose.choice((2, 8, 36, 36, 36))


def keep(files: list, words: list, seed: int, number: int, program: str) -> str:
    """Leaves the files of a case and the command that shows it in a folder of their own."""
    folder = tempfile.mkdtemp(prefix=f"flow_tally_failure_{seed}_{number}_")
    for i, data in enumerate(files, 1):
        with open(os.path.join(folder, f"file{i}"), "wb") as out:
            out.write(data)
    with open(os.path.join(folder, "command"), "w", encoding="utf-8") as out:
        out.write(f"cd {shlex.quote(folder)} && {shlex.join([program, *words])}; echo status $?\n")
    return folder


def malformed(checks: Checks, cases: int = GATE_CASES, seed: int = GATE_SEED, first: int = 0) -> None:
    statuses = {}
    for number in range(first, first + cases):
        files, flows = drawn_case(seed, number)
        choose = random.Random(number)
        options = ["--workers", str(choose.choice((1, 2, 4))), "--flows", str(flows), "--buckets", str(choose.choice((1, 16)))]
        words = ["tally", *options, *(checks.file(f"file{i}", data) for i, data in enumerate(files, 1))]
        ran, wanted = checks.ran(words), reader.ending(files, flows)
        found = (ran.returncode, ran.stdout, ran.stderr)
        checks.is_same(f"malformed files, seed {seed}, case {number}", found, wanted)
        if found != wanted:
            print(f"kept in {keep(files, words, seed, number, checks.program)}")
        statuses[wanted[0]] = statuses.get(wanted[0], 0) + 1
    print("malformed files: " + ", ".join(f"{count} of status {status}" for status, count in sorted(statuses.items())))


def main() -> None:
    words = argparse.ArgumentParser(description="Tallies files of datagrams with faults in them.")
    words.add_argument("--cases", type=int, default=GATE_CASES)
    words.add_argument("--seed", type=int, default=GATE_SEED)
    words.add_argument("--first", type=int, default=0)
    words.add_argument("program", nargs="?")
    given = words.parse_args()
    with tempfile.TemporaryDirectory() as folder:
        checks = Checks(os.path.abspath(given.program) if given.program else built_program(), folder)
        malformed(checks, given.cases, given.seed, given.first)
    print(f"checks: {checks.made - checks.failed} passed, {checks.failed} failed")
    sys.exit(1 if checks.failed else 0)


if __name__ == "__main__":
    main()

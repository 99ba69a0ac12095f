#!/usr/bin/env python3
"""Runs commands that are drawn, for so many minutes, and compares what each writes with what it must.

usage: checks/soak.py MINUTES [SEED [PROGRAM]]

Tallies and trials by 1 to 64 workers against the reader and the fold written here, and drives of 1 to 64 callers
against a search for an order. Where none is found within the search's limit, the drive is counted apart. A run
that fails stays as a folder with its file and its command.
"""
import os
import random
import shlex
import sys
import tempfile
import time

sys.dont_write_bytecode = True
import fold
import generator
import orders
import reader
import scripts
from malformed import drawn_case, keep
from running import Checks, built_program

TOLD_EVERY = 300  # seconds
MOST_STATES = 3_000  # of a search for an order


class Soak:
    """What was run so far."""

    def __init__(self, checks: Checks, choose: random.Random) -> None:
        self.checks = checks
        checks.seconds = 3_600
        self.choose = choose
        self.runs = {}
        self.calls = 0

    def plan(self, flows: int) -> list:
        """Options with which so many flows fit in, for a small table or a large one."""
        choose = self.choose
        workers = choose.choice((1, 2, 3, 4, 8, 16, 33, 64))
        most = flows + choose.choice((0, 0, 1, 10, 1_000, 20_000))
        few = max(1, flows // choose.choice((4, 8, 64)))
        return ["--workers", str(workers), "--flows", str(max(1, most)), "--buckets", str(choose.choice((few, 16, flows + 1, 4_096, 65_536)))]

    def ends(self, kind: str, words: list, files: list, wanted: tuple) -> None:
        ran = self.checks.ran(words)
        found = (ran.returncode, ran.stdout, ran.stderr)
        self.checks.is_same(f"{kind} {words}", found, wanted)
        if found != wanted:
            print(f"kept in {keep(files, words, 0, self.checks.made, self.checks.program)}")
        self.runs[kind] = self.runs.get(kind, 0) + 1

    def tally(self) -> None:
        choose = self.choose
        keys = [fold.random_key(choose) for _ in range(choose.choice((1, 2, 8, 50, 500, 3_000)))]
        files = [fold.export(choose, keys, choose.choice((0, 1, 50, 1_000, 6_000))) for _ in range(choose.randrange(1, 4))]
        flows = fold.flow_count(fold.report(files))
        names = [self.checks.file(f"file{i}", data) for i, data in enumerate(files, 1)]
        options = self.plan(flows)
        self.ends("tally", ["tally", *options, *names], files, reader.ending(files, int(options[3])))
        self.calls += sum((len(data) - 24) // 48 for data in files if data)

    def too_many(self) -> None:
        """A tally of a flow more than there may be."""
        choose = self.choose
        keys = [fold.random_key(choose) for _ in range(choose.choice((2, 50, 500)))]
        files = [fold.export(choose, keys, len(keys) + 100)]
        flows = fold.flow_count(fold.report(files)) - 1
        options = ["--workers", str(choose.randrange(1, 65)), "--flows", str(flows), "--buckets", str(choose.choice((16, 999)))]
        words = ["tally", *options, self.checks.file("file1", files[0])]
        self.ends("tally of too many flows", words, files, reader.ending(files, flows))

    def malformed(self) -> None:
        files, flows = drawn_case(self.choose.getrandbits(32), self.choose.randrange(1_000, 10**9))
        names = [self.checks.file(f"file{i}", data) for i, data in enumerate(files, 1)]
        self.ends("malformed", ["tally", "--flows", str(flows), "--buckets", "16", *names], files, reader.ending(files, flows))

    def trial(self) -> None:
        start, n = self.choose.getrandbits(64), self.choose.choice((1, 7, 30, 90, 400))
        report = fold.report([generator.datagrams(start, n)])
        words = ["trial", *self.plan(fold.flow_count(report)), str(start), str(n)]
        self.ends("trial", words, [], (0, report.splitlines(keepends=True)[-1], b""))
        self.calls += int(report.split()[-3])

    def drive(self) -> None:
        choose = self.choose
        callers = choose.choice((1, 2, 3, 4, 8, 16, 64))
        script = choose.choice((
            lambda: scripts.random_script(choose.getrandbits(32), callers, choose.choice((10, 40, 60))),
            lambda: scripts.many_swaps(callers, choose.randrange(1, 60)),
            lambda: scripts.crowded_script(choose, callers, choose.randrange(1, 8)),
        ))()
        share, buckets = choose.choice((1, 4, 30, 4_096)), choose.choice((1, 2, 16, 4_096))
        words = ["drive", "--share", str(share), "--buckets", str(buckets), self.checks.file("file1", script)]
        ran = self.checks.ran(words)
        self.checks.is_same(f"{words}: status and standard error", (ran.returncode, ran.stderr), (0, b""))
        explained = ran.returncode == 0 and orders.explained(script, ran.stdout, share, buckets, MOST_STATES)
        kind = "drive" if explained is not None else "drive whose order wasn't found within the search's limit"
        if explained is not None:
            self.checks.is_same(f"{words}: an order explains it", explained, True)
        if explained is False or ran.returncode != 0:
            folder = keep([script, ran.stdout], words, 0, self.checks.made, self.checks.program)
            print(f"kept in {folder}, file2 being what was printed")
        self.runs[kind] = self.runs.get(kind, 0) + 1
        self.calls += script.count(b"\n") - 1

    def tell(self, began: float) -> None:
        runs = ", ".join(f"{count} of {kind}" for kind, count in sorted(self.runs.items()))
        print(f"{(time.monotonic() - began) / 60:.0f} minutes: {sum(self.runs.values())} runs ({runs}), {self.calls} records and calls, "
              f"{self.checks.failed} failures", flush=True)


def main() -> None:
    minutes, seed = float(sys.argv[1]), int(sys.argv[2]) if len(sys.argv) > 2 else time.time_ns()
    program = os.path.abspath(sys.argv[3]) if len(sys.argv) > 3 else built_program()
    print(f"soak of {shlex.quote(program)}, seed {seed}", flush=True)
    choose, began = random.Random(seed), time.monotonic()
    told = began
    with tempfile.TemporaryDirectory() as folder:
        soak = Soak(Checks(program, folder), choose)
        kinds = [soak.tally] * 3 + [soak.trial] * 2 + [soak.drive] * 3 + [soak.too_many, soak.malformed]
        while time.monotonic() - began < 60 * minutes:
            choose.choice(kinds)()
            if time.monotonic() - told > TOLD_EVERY:
                told = time.monotonic()
                soak.tell(began)
        soak.tell(began)
    sys.exit(1 if soak.checks.failed else 0)


if __name__ == "__main__":
    main()

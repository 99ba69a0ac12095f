#!/usr/bin/env python3
"""Runs visit_counter on drawn pages, and compares what it writes with Python's Counter.

usage: checks/visits.py [RUNS [SEED]]

Half of the runs draw from few pages, so that the visitors meet in them; the others from multiples of 2^10, which
stand in few chains where the buckets are 2^b.
"""
import collections
import random
import sys
import tempfile

sys.dont_write_bytecode = True
from running import Checks, built_program


def compare(checks: Checks, runs: int, seed: int) -> None:
    """So many runs; `checks` counts those that don't write what Counter counts."""
    draw = random.Random(seed)
    for run in range(runs):
        visitors = draw.randint(1, 16)
        buckets = draw.choice((1, 7, 16, 1021, 1024))
        pages = [draw.randrange(8) if run % 2 else draw.randrange(2**20) * 2**10 for _ in range(draw.randint(0, 2000))]
        right = "".join(f"{page} {visitors * times}\n" for page, times in sorted(collections.Counter(pages).items()))
        what = f"run {run} of seed {seed}: {visitors} visitors, {buckets} buckets, {len(pages)} pages"
        checks.ends(what, [str(number) for number in (visitors, buckets, *pages)], 0, right.encode())


def visits(checks: Checks) -> None:
    """The example of the table, a program of its own."""
    example = Checks(built_program("visit_counter"), checks.folder)
    compare(example, 12, 29)
    example.ends("words that are no numbers", ["4", "8", "+7x"], 0, b"visit_counter VISITORS BUCKETS PAGE..\n")
    checks.made += example.made
    checks.failed += example.failed


def main() -> None:
    runs = int(sys.argv[1]) if len(sys.argv) > 1 else 100
    seed = int(sys.argv[2]) if len(sys.argv) > 2 else random.randrange(2**32)
    with tempfile.TemporaryDirectory() as folder:
        checks = Checks(built_program("visit_counter"), folder)
        compare(checks, runs, seed)
    print(f"{runs} runs of visit_counter, seed {seed}: {checks.failed} of {checks.made} checks failed")
    sys.exit(1 if checks.failed else 0)


if __name__ == "__main__":
    main()

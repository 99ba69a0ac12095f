#!/usr/bin/env python3
"""Runs stock_room on drawn items and orders, and compares what it writes with a stock kept here.

usage: checks/stock.py [RUNS [SEED]]

In half of the runs one worker takes orders of any amount, one after the other; in the others many workers take
orders of one each, of which as many are granted as there is stock, in whatever order they come.
"""
import random
import sys
import tempfile

sys.dont_write_bytecode = True
from running import Checks, built_program


def granted(stock: dict[int, int], orders: list[tuple[int, int]]) -> str:
    """The lines of a run of one worker: item, what is left, what is reserved."""
    left, reserved = dict(stock), dict.fromkeys(stock, 0)
    for item, amount in orders:
        if amount <= left.setdefault(item, 0):
            left[item] -= amount
            reserved[item] = reserved.get(item, 0) + amount
    return "".join(f"{item} {left[item]} {reserved.get(item, 0)}\n" for item in sorted(left))


def compare(checks: Checks, runs: int, seed: int) -> None:
    """So many runs; `checks` counts those that don't write what was granted here."""
    draw = random.Random(seed)
    for run in range(runs):
        alone = run % 2 == 0
        workers = 1 if alone else draw.randint(2, 16)
        buckets = draw.choice((1, 7, 16, 1021))
        stock = {item: draw.randrange(200) for item in draw.sample(range(40), draw.randint(1, 12))}
        items = [*stock, *draw.sample(range(40, 50), 2)]  # two are in no stock
        orders = [(draw.choice(items), draw.randint(0, 30) if alone else 1) for _ in range(draw.randint(0, 800))]
        words = [workers, buckets, len(stock), *(number for pair in [*stock.items(), *orders] for number in pair)]
        what = f"run {run} of seed {seed}: {workers} workers, {buckets} buckets, {len(stock)} items, {len(orders)} orders"
        checks.ends(what, [str(word) for word in words], 0, granted(stock, orders).encode())


def stock(checks: Checks) -> None:
    """The table's second example, a program of its own."""
    example = Checks(built_program("stock_room"), checks.folder)
    compare(example, 12, 31)
    example.ends("an item without a stock", ["4", "8", "1", "7"], 0, b"stock_room WORKERS BUCKETS ITEMS [ITEM STOCK].. [ITEM AMOUNT]..\n")
    checks.made += example.made
    checks.failed += example.failed


def main() -> None:
    runs = int(sys.argv[1]) if len(sys.argv) > 1 else 100
    seed = int(sys.argv[2]) if len(sys.argv) > 2 else random.randrange(2**32)
    with tempfile.TemporaryDirectory() as folder:
        checks = Checks(built_program("stock_room"), folder)
        compare(checks, runs, seed)
    print(f"{runs} runs of stock_room, seed {seed}: {checks.failed} of {checks.made} checks failed")
    sys.exit(1 if checks.failed else 0)


if __name__ == "__main__":
    main()

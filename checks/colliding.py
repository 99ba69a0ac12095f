#!/usr/bin/env python3
"""An export whose flows all fall into one bucket, whatever the number of buckets.

usage: checks/colliding.py FLOWS TIMES >FILE   records of so many flows, each as often, in rounds
       checks/colliding.py --measure PROGRAM   what tallies of such exports cost, as a table; some minutes

The bucket of a key is told by `k0 ^ (k1 turned by 32 bits)` alone, so for any ports, protocol, type of service and
interface there are addresses with which a flow has the hash of another.
"""
import os
import random
import subprocess
import sys
import tempfile
import time

sys.dont_write_bytecode = True
import fold

MIXED = 0x0A000001C0000201  # what k0 and the turned k1 come to for each flow
SIZES = (1_000, 4_000, 16_000)


def colliding_key(choose: random.Random) -> tuple:
    """A flow's addresses, interface, ports, protocol and type of service."""
    sport, dport, prot, tos, interface = choose.getrandbits(16), choose.getrandbits(16), 17, 0, choose.getrandbits(16)
    k1 = sport << 48 | dport << 32 | prot << 24 | tos << 16 | interface
    k0 = MIXED ^ (k1 << 32 | k1 >> 32) & (1 << 64) - 1
    return k0 >> 32, k0 & 0xFFFFFFFF, interface, sport, dport, prot, tos


def random_key(choose: random.Random) -> tuple:
    return tuple(choose.getrandbits(bits) for bits in (32, 32, 16, 16, 16)) + (17, 0)


def export(keys: list, times: int) -> bytes:
    """Records of all keys, so often in rounds."""
    records = [fold.record(src, dst, interface, 1, 40, 1000, 2000, sport, dport, prot, tos)
               for _ in range(times) for src, dst, interface, sport, dport, prot, tos in keys]
    return b"".join(fold.datagram(records[at:at + 30]) for at in range(0, len(records), 30))


def keys_of(make, count: int) -> list:
    choose, found = random.Random(count), {}
    while len(found) < count:
        found[make(choose)] = None
    return list(found)


def seconds(program: str, workers: int, name: str) -> float:
    began = time.monotonic()
    subprocess.run([program, "tally", "--workers", str(workers), name], stdout=subprocess.DEVNULL, check=True)
    return time.monotonic() - began


def measure(program: str) -> None:
    print("| flows, each twice | in one bucket, 1 worker | 4 workers | of random keys, 1 worker | 4 workers |\n|---|---|---|---|---|")
    with tempfile.TemporaryDirectory() as folder:
        for count in SIZES:
            row = []
            for make in (colliding_key, random_key):
                name = os.path.join(folder, f"{make.__name__}_{count}")
                with open(name, "wb") as out:
                    out.write(export(keys_of(make, count), 2))
                row += [f"{min(seconds(program, workers, name) for _ in range(2)):.2f} s" for workers in (1, 4)]
            print(f"| {count:,} | {' | '.join(row)} |", flush=True)


def main() -> None:
    if sys.argv[1] == "--measure":
        measure(os.path.abspath(sys.argv[2]))
    else:
        sys.stdout.buffer.write(export(keys_of(colliding_key, int(sys.argv[1])), int(sys.argv[2])))


if __name__ == "__main__":
    main()

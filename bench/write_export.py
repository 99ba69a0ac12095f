#!/usr/bin/env python3
"""Writes a NetFlow version 5 export of 30-record datagrams.

usage: write_export.py FILE MEGABYTES FLOWS [uniform|zipf|regular]

The records come from FLOWS flows in pseudo-random order, each with its own addresses and ports. Under
zipf flow k is drawn with a weight of 1 / (k + 1)^0.99. Regular flows, 65,536 at most, are drawn alike and
differ in their sources alone, which are a.b.0.1: with 2^b buckets, b at most 16, they all stand in one chain,
so a tally of some thousands of them takes minutes.
"""
import random
import struct
import sys
from itertools import accumulate


def flow_keys(choose: random.Random, flows: int) -> list[bytes]:
    """The addresses and ports of each flow, by chance."""
    return [
        struct.pack(">IIIHH", choose.getrandbits(32), choose.getrandbits(32), 0, choose.randrange(8), 1)
        for _ in range(flows)
    ]


def regular_keys(flows: int) -> list[bytes]:
    """Flows from a.b.0.1 to one address."""
    return [struct.pack(">IIIHH", flow << 16 | 1, 0x0A000001, 0, 0, 1) for flow in range(flows)]


def flow_tails(choose: random.Random, flows: int) -> list[bytes]:
    """What stands behind the numbers of each flow's records."""
    return [
        struct.pack(">HHBBBBHHBBH", choose.getrandbits(16), 443, 0, 24, 6, 0, 0, 0, 24, 24, 0)
        for _ in range(flows)
    ]


def main() -> None:
    path, megabytes, flows = sys.argv[1], int(sys.argv[2]), int(sys.argv[3])
    exponent = -0.99 if sys.argv[4:] == ["zipf"] else 0
    weights = list(accumulate((k + 1) ** exponent for k in range(flows)))
    choose = random.Random(1)
    regular = sys.argv[4:] == ["regular"]
    keys = regular_keys(flows) if regular else flow_keys(choose, flows)
    tails = flow_tails(choose, flows)
    if regular:
        tails = tails[:1] * flows
    sequence = 0
    with open(path, "wb") as out:
        for number in range(megabytes * 1_000_000 // 1464):
            header = struct.pack(">HHIIIIBBH", 5, 30, 20_000_000 + number, 1_700_000_000, 0, sequence, 0, 0, 0)
            records = []
            for flow in choose.choices(range(flows), cum_weights=weights, k=30):
                first = choose.getrandbits(31)
                numbers = struct.pack(">IIII", choose.randrange(1, 1000), choose.randrange(64, 1_000_000), first, first + 1000)
                records.append(keys[flow] + numbers + tails[flow])
            out.write(header + b"".join(records))
            sequence += 30


if __name__ == "__main__":
    main()

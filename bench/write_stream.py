#!/usr/bin/env python3
"""Writes a stream of the numbers of registers or keys: 32 bits each, the least byte first.

usage: write_stream.py FILE COUNT NUMBERS uniform|zipf|regular
       write_stream.py FILE COUNT NUMBERS lone BUCKETS

Under zipf the number k is drawn with a weight of 1 / (k + 1)^0.99. The others are of key numbers that `table_speed find` inserts before its time
begins, which are the even ones: regular has them in their order, lone draws alike those that are alone in their bucket, so each is its first.
The same words give the same file.
"""
import random
import struct
import sys
from itertools import accumulate

SHAPES = ("uniform", "zipf")
WORD = (1 << 64) - 1


def bucket_of(number: int, buckets: int) -> int:
    """The bucket of the key of this number, of so many."""
    first, second = (number * 6364136223846793005 + 1442695040888963407) & WORD, number
    turned = (second << 32 | second >> 32) & WORD
    return (((first ^ turned) * 0x9E3779B97F4A7C15 & WORD) >> 32) % buckets


def lone_keys(keys: int, buckets: int) -> list[int]:
    """The even key numbers below `keys` that share their bucket with no other even one."""
    by_bucket: dict[int, int] = {}
    shared = set()
    for number in range(0, keys, 2):
        bucket = bucket_of(number, buckets)
        if bucket in by_bucket:
            shared.add(bucket)
        by_bucket[bucket] = number
    return [number for bucket, number in by_bucket.items() if bucket not in shared]


def numbers_of(count: int, most: int, shape: str, buckets: int) -> list[int]:
    choose = random.Random(f"{count} {most} {shape}")
    if shape == "uniform":
        return [choose.randrange(most) for _ in range(count)]
    if shape == "regular":
        return [2 * i % (most + most % 2) for i in range(count)]
    if shape == "lone":
        return choose.choices(lone_keys(most, buckets), k=count)
    weights = list(accumulate((k + 1) ** -0.99 for k in range(most)))
    return choose.choices(range(most), cum_weights=weights, k=count)


def write_stream(path: str, count: int, most: int, shape: str, buckets: int = 0) -> None:
    with open(path, "wb") as out:
        out.write(struct.pack(f"<{count}I", *numbers_of(count, most, shape, buckets)))


def main() -> None:
    words = sys.argv[1:]
    if len(words) == 5 and words[3] == "lone":
        write_stream(words[0], int(words[1]), int(words[2]), "lone", int(words[4]))
    elif len(words) == 4 and words[3] in (*SHAPES, "regular"):
        write_stream(words[0], int(words[1]), int(words[2]), words[3])
    else:
        sys.exit(__doc__)


if __name__ == "__main__":
    main()

#!/usr/bin/env python3
"""The export datagrams that a trial is made of, by the generator's formulas, apart from the program.

usage: checks/generator.py START N >FILE   the bytes of N datagrams from the number START
       checks/generator.py --table         a row for each start to try: START, and the checksum of its datagrams 0 to 39
"""
import random
import struct
import sys

MODULUS = 2**64
TABLE_DATAGRAMS = 40  # each number of records from 1 to 30, and some again


def numbers(start: int):
    """x(1), x(2) and so on, for x(0) = start."""
    x = start
    while True:
        x = (x * 6364136223846793005 + 1442695040888963407) % MODULUS
        yield x


def header(i: int, count: int, before: int) -> bytes:
    """The header of datagram i, which has `count` records; `before` records stand before it in the file."""
    return struct.pack(">HH", 5, count) + struct.pack(">IIII", 20_000_000 + i, 1_700_000_000 + i, 0, before) + bytes(4)


def record(j: int, x: int) -> bytes:
    """Record j of the file, of the number x."""
    m, first, packets = x % 1024, x >> 40, j % 8 + 1
    addresses = struct.pack(">III", 0x0A000000 + m, 0xC0000200 + m % 256, 0)
    counts = struct.pack(">HHII", m % 4 + 1, 0, packets, 100 * packets)
    times = struct.pack(">II", first, first + (x >> 32) % 256)
    ports = struct.pack(">HHBBBB", 1024 + m, 443, 0, 24, 17 if m % 2 else 6, 0)
    return addresses + counts + times + ports + bytes(8)


def datagrams(start: int, n: int) -> bytes:
    """The datagrams 0 to n - 1, one after the other."""
    drawn, parts, j = numbers(start), [], 0
    for i in range(n):
        count = i % 30 + 1
        parts.append(header(i, count, j))
        for _ in range(count):
            parts.append(record(j, next(drawn)))
            j += 1
    return b"".join(parts)


def checksum(data: bytes) -> int:
    """FNV-1a of 64 bits."""
    found = 0xCBF29CE484222325
    for byte in data:
        found = (found ^ byte) * 0x100000001B3 % MODULUS
    return found


def starts() -> list:
    """Fifty starts to try: both ends, two small ones, and drawn ones."""
    choose = random.Random(64)
    return [0, 1, 7, MODULUS - 1] + [choose.getrandbits(64) for _ in range(46)]


def main() -> None:
    if sys.argv[1:] == ["--table"]:
        for start in starts():
            print(f"({start}, {checksum(datagrams(start, TABLE_DATAGRAMS))}),")
    else:
        sys.stdout.buffer.write(datagrams(int(sys.argv[1]), int(sys.argv[2])))


if __name__ == "__main__":
    main()

"""The lines of engines: how many of their flows came, how many never came, and how often their numbers went back."""
import re

import fold
from running import Checks

ROWS = (  # datagrams as engine type and id, sequence number and count, and the lines that they come to
    ("none lost", "0.0:100+3 0.0:103+2 0.0:105+1", ["engine 0 0 flows 6 lost 0 resets 0"]),
    ("two datagrams lost", "0.0:100+3 0.0:103+2 0.0:112+1", ["engine 0 0 flows 6 lost 7 resets 0"]),
    ("one twice", "0.0:100+3 0.0:103+2 0.0:103+2 0.0:105+1", ["engine 0 0 flows 8 lost 0 resets 1"]),
    ("a restart", "0.0:100+3 0.0:103+2 0.0:0+4 0.0:4+1", ["engine 0 0 flows 10 lost 0 resets 1"]),
    ("two that changed places", "0.0:100+3 0.0:105+1 0.0:103+2 0.0:106+1", ["engine 0 0 flows 7 lost 3 resets 1"]),
    ("past the last number", "0.0:4294967295+1 0.0:0+30 0.0:32+1", ["engine 0 0 flows 32 lost 2 resets 0"]),
    ("the largest loss", "0.0:0+1 0.0:2147483648+1", ["engine 0 0 flows 2 lost 2147483647 resets 0"]),
    ("the least reset", "0.0:0+1 0.0:2147483649+1", ["engine 0 0 flows 2 lost 0 resets 1"]),
    ("engines in turn", "1.255:7+1 1.0:0+2 0.2:9+1 1.0:3+1 1.255:8+1",
     ["engine 0 2 flows 1 lost 0 resets 0", "engine 1 0 flows 3 lost 1 resets 0", "engine 1 255 flows 2 lost 0 resets 0"]),
)


def datagram_of(mark: str) -> bytes:
    kind, number, sequence, count = (int(word) for word in re.split("[.:+]", mark))
    record = fold.record(1, 2, 1, 1, 40, 1000, 2000, 3, 4, 6, 0)
    return fold.datagram([record] * count, sequence=sequence, engine=(kind, number))


def lost_flows(checks: Checks) -> None:
    for what, marks, lines in ROWS:
        sent = [datagram_of(mark) for mark in marks.split()]
        report = fold.report(sent)
        told = [line for line in report.decode().splitlines() if line.startswith("engine ")]
        checks.is_same(f"engines by the fold, {what}", told, lines)
        names = [checks.file(f"sent_{i}.nf5", data) for i, data in enumerate(sent)]
        checks.ends(f"engines, {what}, a file for each datagram", ["tally", *names], 0, report)
        checks.ends(f"engines, {what}, one file", ["tally", checks.file("sent.nf5", b"".join(sent))], 0, report)

"""Trials: tallies of the generator's datagrams, of which the report's last line alone is printed.

The line depends on the number of datagrams only: all starts give one line. So no check here tells by which
start a trial's datagrams are made; a test of netflow_five has checksums of the bytes that a start gives.
"""
import os
import random

import fold
import generator
from running import USAGE, Checks, closed_pipe, little_memory

MILLION = "flows 1024 packets 4570632 octets 457063200 records 1015696 datagrams 65536"  # the longest trial
ROWS = (
    ([], 7, 0, "flows 0 packets 0 octets 0 records 0 datagrams 0"),
    ([], 7, 1, "flows 1 packets 1 octets 100 records 1 datagrams 1"),
    (["--flows", "4096"], 7, 2000, "flows 1024 packets 139042 octets 13904200 records 30900 datagrams 2000"),
    (["--flows", "1024"], 0, 65536, MILLION),
)
ENOUGH = 512  # mebibytes with which each trial of 4 workers and the flows and buckets of no option ends well
FEW = (0, 1, 30, 31)  # none, one, a round of sizes, and one more
ONE = b"flows 1 packets 1 octets 100 records 1 datagrams 1\n"
TAKEN = (
    ["7", "1"], ["--", "7", "1"], ["--workers", "4", "7", "1"], ["07", "1"], ["7", "0000001"], ["18446744073709551615", "1"],
    ["7", "--workers=64", "1"], ["7", "1", "--flows", "1", "--buckets", "1"],
)
NOT_TAKEN = (
    [], ["7"], ["7", "8", "9"], ["--help"], ["+7", "8"], ["7", "+8"], ["7", "-1"], ["-7", "8"], ["", "8"], ["7", ""], ["0x7", "8"], ["7", "8 "],
    ["0", "65537"], ["18446744073709551616", "1"], ["7", "18446744073709551617"], ["--workers", "7", "8"], ["--", "--workers", "7"],
    ["--workers", "0", "7", "8"], ["--workers", "65", "7", "8"], ["--flows", "0", "7", "8"], ["--flows", "1048577", "7", "8"],
    ["--buckets", "0", "7", "8"], ["--buckets", "1048577", "7", "8"], ["--share", "4", "7", "8"], ["--quick", "7", "8"],
)


def last_line(report: bytes) -> bytes:
    return report.splitlines(keepends=True)[-1]


def many_starts(checks: Checks) -> None:
    """A tally of the file of each start's datagrams writes the whole report that the fold makes of them.

    A trial of as many datagrams from that start prints the report's last line, which any other start would give too.
    """
    choose = random.Random(9)
    for i, start in enumerate(generator.starts()):
        n, workers = FEW[i] if i < len(FEW) else choose.randrange(2, 70), choose.choice((1, 2, 4, 64))
        data = generator.datagrams(start, n)
        report = fold.report([data])
        flows = max(1, fold.flow_count(report))
        options = ["--workers", str(workers), "--flows", str(flows), "--buckets", str(choose.randrange(1, 2000))]
        words = ["trial", *options, str(start), str(n)]
        checks.ends(f"the file of {words}", ["tally", *options, checks.file("generated", data)], 0, report)
        checks.ends(f"{words}", words, 0, last_line(report))


def known_lines(checks: Checks) -> None:
    for options, start, n, line in ROWS:
        for workers in (1, 4, 64):
            words = ["trial", "--workers", str(workers), *options, str(start), str(n)]
            checks.ends(f"{words}", words, 0, line.encode() + b"\n")


def words_of_trials(checks: Checks) -> None:
    for words in TAKEN:
        checks.ends(f"trial {words}", ["trial", *words], 0, ONE)
    for words in NOT_TAKEN:
        checks.ends(f"usage, trial {words}", ["trial", *words], 2, err=USAGE)
    checks.ends("a start that is no UTF-8", [b"trial", b"\xff", b"1"], 2, err=USAGE)


def limits(checks: Checks) -> None:
    """The limit on flows, and a plan that is far too large."""
    few = ["trial", "--flows", "1023", "0", "2000"]
    checks.ends("a flow too many", few, 7, err="flow_tally: more than 1023 flows\n")
    checks.ends("two flows too many", ["trial", "--flows", "1", "7", "2"], 7, err="flow_tally: more than 1 flows\n")
    plan = ["trial", "--workers", "64", "--flows", "1048576", "7", "1"]
    checks.ends("too large a plan of a trial", plan, 11, err="flow_tally: plan too large: 134299712 nodes\n")


def little_memories(checks: Checks) -> None:
    many = ["trial", "0", "65536"]
    checks.ends("a long trial and little memory", many, 10, err="flow_tally: out of memory\n", before=little_memory)
    for mebibytes in (48, 64, 96, 128, 192, 256, ENOUGH):
        checks.ends_or_wants_memory("a short trial", ["trial", "7", "1"], ONE, mebibytes, ENOUGH)
        checks.ends_or_wants_memory("a long trial", many, MILLION.encode() + b"\n", mebibytes, ENOUGH)


def bad_outputs(checks: Checks) -> None:
    line = "flow_tally: output cannot be written\n"
    with open("/dev/full", "wb") as full:
        checks.ends("a trial to a full device", ["trial", "7", "1"], 5, err=line, stdout=full)
        checks.ends("a trial that is refused, to a full device", ["trial", "7"], 2, err=USAGE, stdout=full)
    pipe = closed_pipe()
    checks.ends("a trial to a closed pipe", ["trial", "7", "1"], 5, err=line, stdout=pipe)
    os.close(pipe)


def trials(checks: Checks) -> None:
    many_starts(checks)
    known_lines(checks)
    words_of_trials(checks)
    limits(checks)
    little_memories(checks)
    bad_outputs(checks)

#!/usr/bin/env python3
"""Each limit of the program at its last good and its first bad number.

usage: checks/limits.py [PROGRAM]   what each limit costs at its last good number: seconds and peak memory, as a table
"""
import os
import subprocess
import sys
import tempfile
import time

sys.dont_write_bytecode = True
import fold
import generator
from running import USAGE, Checks, built_program, little_memory

MOST_BYTES = 1 << 28
FLOWS = 1_048_576
ONE = fold.datagram([fold.record(0x0A000001, 0x0A000002, 1, 12, 3400, 1000, 2000, 1234, 80, 6, 0)])
ONE_TRIAL = b"flows 1 packets 1 octets 100 records 1 datagrams 1\n"
LARGEST_PLAN = ["trial", "--workers", "8", "--flows", "1048543", "--buckets", "264", "7", "1"]  # 2^24 nodes
OPTIONS = (  # a command's option, its largest number, and what keeps its plan small
    ("trial", "--workers", 64, ["--flows", "16"]),
    ("trial", "--flows", FLOWS, ["--workers", "1"]),
    ("trial", "--buckets", FLOWS, ["--workers", "1", "--flows", "16"]),
    ("tally", "--workers", 64, ["--flows", "16"]),
    ("tally", "--flows", FLOWS, ["--workers", "1"]),
    ("tally", "--buckets", FLOWS, ["--workers", "1", "--flows", "16"]),
    ("drive", "--share", 65_536, []),
    ("drive", "--buckets", 65_536, []),
)


def options(checks: Checks) -> None:
    """Numbers on the command line: 0 and the one after the largest fit no command, 1 and the largest do."""
    words_of = {"trial": ["7", "1"], "tally": [checks.file("one.nf5", ONE)], "drive": [checks.file("script", b"callers 1\n0 load 0\n")]}
    for command, option, most, others in OPTIONS:
        for number in (0, most + 1, 2**32, 2**32 + 1, 2**64, 2**64 + 1):
            checks.ends(f"{command} {option} {number}", [command, option, str(number), *others, *words_of[command]], 2, err=USAGE)
        for number in (1, most):
            words = [command, option, str(number), *others, *words_of[command]]
            if command != "drive":
                checks.ends(f"{command} {option} {number}", words, 0, ONE_TRIAL if command == "trial" else fold.report([ONE]))
                continue
            share, buckets = (number, 16) if option == "--share" else (4_096, number)
            last = f"nodes {share + 16 + buckets} free {share} live {16 + buckets}\n"
            checks.ends(f"{command} {option} {number}", words, 0, b"0\n" + last.encode())


def trials(checks: Checks) -> None:
    for start, n in (("0", "65537"), (str(2**64), "0"), (str(2**64), "1")):
        checks.ends(f"a trial of {start} {n}", ["trial", start, n], 2, err=USAGE)
    most = ["trial", "--flows", "1024", str(2**64 - 1), "65536"]
    checks.ends("the longest trial from the last start", most, 0, b"flows 1024 packets 4570632 octets 457063200 records 1015696 datagrams 65536\n")


def flows(checks: Checks) -> None:
    """As many flows as `--flows` says, and one more."""
    data = generator.datagrams(7, 7)  # 28 records, each of a flow of its own
    name = checks.file("flows", data)
    checks.ends("28 flows of 28", ["tally", "--flows", "28", name], 0, fold.report([data]))
    checks.ends("28 flows of 27", ["tally", "--flows", "27", name], 7, err="flow_tally: more than 27 flows\n")


def scripts_at_limits(checks: Checks) -> None:
    """Callers, registers, numbers and lines of a script; a line of a megabyte is within all limits."""
    def ends(what: str, script: bytes, line) -> None:
        words = ["drive", "--share", "1", "--buckets", "1", checks.file("script", script)]
        if isinstance(line, bytes):
            checks.ends(what, words, 0, line)
        else:
            checks.ends(what, words, 9, err=f"flow_tally: script {line}\n")
    ends("64 callers", b"callers 64\n63 load 0\n", b"0\nnodes 81 free 64 live 17\n")
    ends("65 callers", b"callers 65\n", "line 1: range")
    ends("no callers", b"callers 0\n", "line 1: range")
    ends("the last caller's number and 1", b"callers 64\n64 load 0\n", "line 2: range")
    ends("register 15", b"callers 1\n0 load 15\n", b"0\nnodes 18 free 1 live 17\n")
    ends("register 16", b"callers 1\n0 load 16\n", "line 2: range")
    ends("the largest number", b"callers 1\n0 store 0 18446744073709551615\n", b"done\nregister 0 18446744073709551615\nnodes 18 free 1 live 17\n")
    ends("2^64", b"callers 1\n0 store 0 18446744073709551616\n", "line 2: number")
    ends("seven numbers", b"callers 1\n0 store 0 1,2,3,4,5,6,7\n", b"done\nregister 0 1,2,3,4,5,6,7\nnodes 18 free 1 live 17\n")
    ends("eight numbers", b"callers 1\n0 store 0 1,2,3,4,5,6,7,8\n", "line 2: number")
    ends("a value of six numbers", b"callers 1\n0 insert 0 1,2,3,4,5,6\n", "line 2: number")
    ends("65,536 calls", b"callers 1\n" + b"0 load 0\n" * 65_536, b"0\n" * 65_536 + b"nodes 18 free 1 live 17\n")
    ends("65,537 calls", b"callers 1\n" + b"0 load 0\n" * 65_537, "line 65538: too many")
    ends("a megabyte for a number", b"callers 1\n0 load " + b"1" * 1_000_000 + b"\n", "line 2: number")
    ends("a megabyte without a space", b"callers 1\n" + b"x" * 1_000_000 + b"\n", "line 2: words")
    ends("a megabyte of spaces", b" " * 1_000_000, "line 1: words")
    ends("a megabyte of commas", b"callers 1\n0 store 0 " + b"," * 1_000_000 + b"\n", "line 2: number")


def bytes_of_files(checks: Checks) -> None:
    """2^28 bytes of two files, and one more; the records of so many bytes would take minutes here, so the second file is none."""
    one, large = checks.file("one.nf5", ONE), checks.file("large", b"")
    path = os.path.join(checks.folder, large)
    os.truncate(path, MOST_BYTES - len(ONE))
    checks.ends("2^28 bytes of two files", ["tally", one, large], 6, err="flow_tally: file 2 offset 0: version 0\n")
    os.truncate(path, MOST_BYTES - len(ONE) + 1)
    checks.ends("2^28 bytes and one more of two files", ["tally", one, large, "missing"], 8, err="flow_tally: input too large at file 2\n")
    os.truncate(path, MOST_BYTES)
    checks.ends("2^28 bytes and an empty file", ["tally", checks.file("empty", b""), large], 6, err="flow_tally: file 2 offset 0: version 0\n")
    checks.ends("a script of 2^28 bytes", ["drive", large], 9, err="flow_tally: script line 1: words\n")
    os.truncate(path, MOST_BYTES + 1)
    checks.ends("a script of 2^28 bytes and one more", ["drive", large], 8, err="flow_tally: input too large at file 1\n")
    os.remove(path)


def plans(checks: Checks) -> None:
    """A plan of 2^24 nodes is taken, and ends for want of memory where there is little; one node more is refused."""
    checks.ends("2^24 nodes and little memory", LARGEST_PLAN, 10, err="flow_tally: out of memory\n", before=little_memory)
    beyond = [word.replace("264", "265") for word in LARGEST_PLAN]
    checks.ends("2^24 nodes and one more", beyond, 11, err="flow_tally: plan too large: 16777217 nodes\n")
    beyond[0], beyond[-2:] = "tally", ["missing"]
    checks.ends("2^24 nodes and one more of a tally", beyond, 11, err="flow_tally: plan too large: 16777217 nodes\n")


def limits(checks: Checks) -> None:
    options(checks)
    trials(checks)
    flows(checks)
    scripts_at_limits(checks)
    bytes_of_files(checks)
    plans(checks)


def cost(program: str, folder: str, words: list) -> tuple:
    """Seconds and mebibytes of one run."""
    began = time.monotonic()
    running = subprocess.Popen([program, *words], cwd=folder, stdin=subprocess.DEVNULL, stdout=subprocess.DEVNULL, stderr=subprocess.DEVNULL)
    _, status, usage = os.wait4(running.pid, 0)
    running.returncode = os.waitstatus_to_exitcode(status)
    return running.returncode, time.monotonic() - began, usage.ru_maxrss / 1024


def measured(checks: Checks) -> tuple:
    """What is measured: a limit, and the words of a run at it."""
    record = ONE[24:]
    checks.file("one.nf5", ONE)
    checks.file("full.nf5", fold.datagram([record] * 30) * (MOST_BYTES // 1464))
    checks.file("longest", b"callers 64\n" + b"".join(b"%d load 0\n" % (i % 64) for i in range(65_536)))
    checks.file("megabyte", b"callers 1\n0 load " + b"1" * 1_000_000 + b"\n")
    checks.file("many", b"callers 64\n")
    return (
        ("64 workers, 16 flows", ["trial", "--workers", "64", "--flows", "16", "7", "1"]),
        ("64 workers, 65,536 flows", ["trial", "--workers", "64", "7", "1"]),
        ("1,048,576 flows, 1 worker", ["trial", "--workers", "1", "--flows", "1048576", "7", "1"]),
        ("1,048,576 buckets, 1 worker", ["trial", "--workers", "1", "--flows", "16", "--buckets", "1048576", "7", "1"]),
        ("2^24 nodes", LARGEST_PLAN),
        ("65,536 datagrams of a trial", ["trial", "0", "65536"]),
        ("2^28 bytes of records of one flow, 1 worker", ["tally", "--workers", "1", "--flows", "1", "full.nf5"]),
        ("2^28 bytes of records of one flow, 4 workers", ["tally", "--flows", "1", "full.nf5"]),
        ("65,536 lines, 64 callers", ["drive", "longest"]),
        ("64 callers with a share of 65,536", ["drive", "--share", "65536", "many"]),
        ("a line of a megabyte", ["drive", "megabyte"]),
    )


def main() -> None:
    program = os.path.abspath(sys.argv[1]) if len(sys.argv) > 1 else built_program()
    with tempfile.TemporaryDirectory() as folder:
        print("| at the limit | exit status | seconds | peak memory |\n|---|---|---|---|")
        for what, words in measured(Checks(program, folder)):
            status, seconds, mebibytes = min((cost(program, folder, words) for _ in range(3)), key=lambda run: run[1])
            print(f"| {what} | {status} | {seconds:.2f} | {mebibytes:.0f} MiB |", flush=True)


if __name__ == "__main__":
    main()

#!/usr/bin/env python3
"""Runs the built program from outside: exit statuses, streams and bytes.

usage: checks/run.py [PROGRAM [PART..]]

What a run must write comes from a fold, a generator and a plain object written here, apart from the program.
Without PROGRAM it takes crates/flow_tally/out/flow_tally, which it has `rt run` build where it is missing, and
which may not be older than its sources. The parts `visits` and `stock` take crates/visit_counter/out/visit_counter and
crates/stock_room/out/stock_room so, always.
It needs Python's own library alone, tells what it leaves out, and ends with status 1 where a check fails. PART is a
name of PARTS; all are run where none is given.
"""
import os
import random
import struct
import sys
import tempfile
import time

sys.dont_write_bytecode = True  # the repository stays as it was
import devices
import fold
import limits
import lost_flows
import malformed
import recipes
import refused_memory
import regular
import scripts
import stock
import stress
import trials
import visits
import wrong_orders
from limits import MOST_BYTES
from running import TOP, USAGE, Checks, built_program, little_memory


def tallies(checks: Checks) -> None:
    """Reports of files, the fold of which is made here."""
    choose = random.Random(5)
    flows = [fold.random_key(choose) for _ in range(5_000)]
    files = [
        fold.export(choose, flows[:100], 50),
        fold.export(choose, flows, 12_000),
        fold.export(choose, flows[4_000:], 2_000),
    ]
    assert len(files[1]) > 256 * 1024
    names = [checks.file(f"flows_{i}.nf5", data) for i, data in enumerate(files)]
    checks.ends("three files, 5,000 flows", ["tally", *names], 0, fold.report(files))
    checks.ends("the same file twice", ["tally", names[0], names[0]], 0, fold.report([files[0], files[0]]))
    checks.ends("options before and between files", ["tally", "--flows=5000", names[0], "--workers", "64", names[1]], 0, fold.report(files[:2]))
    checks.ends("an empty file", ["tally", checks.file("empty", b"")], 0, fold.report([b""]))
    checks.ends("too many flows", ["tally", "--flows", "4999", *names], 7, err="flow_tally: more than 4999 flows\n")


def bad_words(checks: Checks, one: str) -> None:
    """Words that fit no command, and a plan that is too large."""
    for words in ([], ["count", one], ["tally"], ["tally", "--workers", "65", one], ["tally", "--flows", "0", one], ["tally", "--help"],
                  ["drive", one, one], ["drive", "--share", "+1", one], ["tally", "--quick", one]):
        checks.ends(f"usage {words}", words, 2, err=USAGE)
    checks.ends("a word that is no UTF-8", [b"tally", one.encode(), b"\xff\xfe"], 2, err=USAGE)
    checks.ends("a first word that is no UTF-8", [b"\xc3(", one.encode()], 2, err=USAGE)
    plan = ["tally", "--workers", "64", "--flows", "1048576", "missing"]
    checks.ends("too large a plan, before any file", plan, 11, err="flow_tally: plan too large: 134299712 nodes\n")


def bad_files(checks: Checks, one: str, data: bytes) -> None:
    """Files that can't be opened or read, are too large or no exports."""
    checks.ends("a file that is missing", ["tally", one, "missing"], 3, err="flow_tally: file 2 cannot be opened\n")
    checks.ends("a script that is missing", ["drive", "missing"], 3, err="flow_tally: file 1 cannot be opened\n")
    os.mkdir(os.path.join(checks.folder, "folder"))
    checks.ends("a folder", ["tally", one, "folder"], 4, err="flow_tally: file 2 cannot be read\n")
    for name, bad, line in (
        ("short_header", data + bytes(23), "offset 72: short header, 23 bytes left"),
        ("version", data + struct.pack(">HH", 9, 1) + data[4:], "offset 72: version 9"),
        ("count", struct.pack(">HH", 5, 31) + data[4:], "offset 0: count 31"),
        ("short_records", data[:71], "offset 0: short records, 47 bytes left, 48 wanted"),
    ):
        checks.ends(f"a bad datagram, {name}", ["tally", one, checks.file(name, bad), "missing"], 6, err=f"flow_tally: file 2 {line}\n")
    large = checks.file("large", b"")
    os.truncate(os.path.join(checks.folder, large), MOST_BYTES)
    checks.ends("a large file and little memory", ["tally", large], 6, err="flow_tally: file 1 offset 0: version 0\n", before=little_memory)
    checks.ends("a large script and little memory", ["drive", large], 10, err="flow_tally: out of memory\n", before=little_memory)
    many = checks.file("many", fold.datagram([data[24:]] * 30) * 40_000)
    checks.ends("many records and little memory", ["tally", many], 10, err="flow_tally: out of memory\n", before=little_memory)


def drives(checks: Checks) -> None:
    """Scripts, whose callers' calls an order must explain on a plain object."""
    for callers, lines in ((1, 400), (2, 40), (4, 40), (8, 40), (64, 32)):
        checks.explains(f"{callers} callers", scripts.random_script(callers, callers, lines), 4096, 16)
    checks.explains("few nodes", scripts.random_script(20, 3, 40), 4, 2)
    checks.explains("one node each", scripts.random_script(21, 1, 200), 1, 1)
    checks.explains("swaps of 64 callers", scripts.many_swaps(64, 20), 4096, 16)
    checks.explains("ten pairs", scripts.ten_pairs(), 64, 1)
    for name, script, line in (
        ("words", b"callers 1\n0 load  1\n", "line 2: words"),
        ("number", b"callers 2\n1 store 0 1,2,03\n", "line 2: number"),
        ("range", b"callers 65\n", "line 1: range"),
        ("held", b"callers 2\n0 hold 1\n1 look\n", "line 3: held"),
    ):
        checks.ends(f"no script, {name}", ["drive", checks.file("bad_" + name, script)], 9, err=f"flow_tally: script {line}\n")


def one_record(checks: Checks) -> None:
    """The file of one record, and what most parts do with it."""
    data = fold.datagram([fold.record(0x0A000001, 0x0A000002, 1, 12, 3400, 1000, 2000, 1234, 80, 6, 0)])
    one = checks.file("one.nf5", data)
    lines = (b"10.0.0.1 10.0.0.2 1234 80 6 0 1 12 3400 1699999991000 1699999992000 24\nengine 0 0 flows 1 lost 0 resets 0\n"
             b"flows 1 packets 12 octets 3400 records 1 datagrams 1\n")
    checks.ends("one record", ["tally", one], 0, lines)
    bad_words(checks, one)
    bad_files(checks, one, data)


PARTS = {
    "one_record": one_record,
    "tallies": tallies,
    "lost_flows": lost_flows.lost_flows,
    "wrong_orders": wrong_orders.wrong_orders,
    "drives": drives,
    "trials": trials.trials,
    "stress": stress.stress,
    "regular_keys": regular.regular_keys,
    "limits": limits.limits,
    "devices": devices.devices,
    "refused_memory": refused_memory.refused_memory,
    "malformed": malformed.malformed,
    "visits": visits.visits,
    "stock": stock.stock,
    "recipes": lambda checks: recipes.recipes(checks, TOP),
}


def main() -> None:
    program = os.path.abspath(sys.argv[1]) if len(sys.argv) > 1 else built_program()
    made, failed = 0, 0
    for name in sys.argv[2:] or PARTS:
        began = time.monotonic()
        with tempfile.TemporaryDirectory() as folder:
            checks = Checks(program, folder)
            PARTS[name](checks)
        made, failed = made + checks.made, failed + checks.failed
        print(f"checks of {name}: {checks.made - checks.failed} passed, {checks.failed} failed, {time.monotonic() - began:.0f} s", flush=True)
    print(f"checks: {made - failed} passed, {failed} failed")
    sys.exit(1 if failed else 0)


if __name__ == "__main__":
    main()

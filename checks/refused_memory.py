"""Runs of the program in which one growth of its memory, or the start of one thread, is refused: each in turn.

The allocator that refuses is refuse.c, compiled by cc and preloaded; without cc, or where it can't be preloaded,
this is left out.
"""
import os
import shutil
import struct
import subprocess

import fold
import generator
from running import TOP, Checks

MOST_GROWTHS = 2_000
TOLD = struct.Struct("=QQQ")
MEMORY, THREAD = 1, 2
FIFTEEN = b"""callers 1
0 swap 3 0 0
0 store 3 7,0,1
0 store 3 7,0,1
0 swap 3 7 8
0 load 3
0 insert 9,4 1,2
0 insert 9,4 5
0 replace 9,4 1,2 1,2
0 replace 9,4 5 6
0 remove 9,4
0 find 9,4
0 replace 9,4 0 1
0 remove 9,4
0 insert 9,4 3
0 find 9,4
"""
FIFTEEN_REPLIES = (
    "yes", "done", "done", "no", "7,0,1", "done", "present 1,2", "yes", "found 1,2", "gone 1,2", "absent", "absent", "absent", "done", "3",
    "register 3 7,0,1", "record 9,4 3", "nodes 4128 free 4096 live 32",
)


def in_one_bucket() -> bytes:
    """900 records of 300 flows, one packet and 40 octets each."""
    records = [fold.record(0x0A000000 + i % 300, 0x0A000002, 1, 1, 40, 1000, 2000, 1234, 80, 6, 0) for i in range(900)]
    return b"".join(fold.datagram(records[at:at + 30]) for at in range(0, 900, 30))


def rows(checks: Checks) -> tuple:
    """What is run, its words, and what it writes where nothing is refused."""
    one = fold.datagram([fold.record(0x0A000001, 0x0A000002, 1, 12, 3400, 1000, 2000, 1234, 80, 6, 0)])
    many = in_one_bucket()
    one_name, many_name = checks.file("one.nf5", one), checks.file("many.nf5", many)
    replies = "".join(line + "\n" for line in FIFTEEN_REPLIES).encode()
    trial = fold.report([generator.datagrams(7, 3)]).splitlines(keepends=True)[-1]
    return (
        ("one record", ["tally", one_name], fold.report([one])),
        ("300 flows in one bucket by 4 workers", ["tally", "--buckets", "1", "--flows", "300", many_name], fold.report([many])),
        ("a script of 15 calls", ["drive", checks.file("fifteen", FIFTEEN)], replies),
        ("a trial", ["trial", "7", "3"], trial),
        ("64 workers", ["tally", "--workers", "64", "--flows", "16", one_name], fold.report([one])),
    )


def allocator(checks: Checks):
    """The allocator as a library; None where there is no cc."""
    if shutil.which("cc") is None:
        return None
    path = os.path.join(checks.folder, "refuse.so")
    made = subprocess.run(["cc", "-O1", "-shared", "-fPIC", "-o", path, os.path.join(TOP, "checks", "refuse.c"), "-ldl", "-lpthread"],
                          capture_output=True, check=False)
    return path if made.returncode == 0 else None


def ran_refused(checks: Checks, library: str, words: list, number: int) -> tuple:
    """The run with that growth refused: what it came to, and what the allocator tells."""
    told = os.path.join(checks.folder, "told")
    with open(told, "wb") as out:
        out.write(bytes(TOLD.size))
    ran = checks.ran(words, env={**os.environ, "LD_PRELOAD": library, "REFUSE": str(number), "TOLD": told})
    with open(told, "rb") as file:
        return (ran.returncode, ran.stdout, ran.stderr), TOLD.unpack(file.read())


def refuse_each(checks: Checks, library: str, what: str, words: list, out: bytes) -> None:
    """Refuses growth 1, 2 and so on, until a run meets no refusal, as its growths are fewer."""
    done, wants = (0, out, b""), (10, b"", b"flow_tally: out of memory\n")
    counts = {MEMORY: 0, THREAD: 0, 0: 0}
    for number in range(1, MOST_GROWTHS):
        found, (growths, refused, before_write) = ran_refused(checks, library, words, number)
        counts[refused] += 1
        # A caller whose thread can't be started has its work done all the same.
        wanted = wants if refused == MEMORY and found == wants else done
        checks.is_same(f"{what}, growth {number} refused", found, wanted)
        if found == done:
            checks.is_same(f"{what}, growths after the first write, {number} refused", growths + 1 - before_write, 0)
        if not refused:
            break
    checks.is_same(f"{what}: a run without a refusal", counts[0], 1)
    checks.is_same(f"{what}: memory that was refused", counts[MEMORY] > 0, True)
    print(f"refused memory, {what}: {counts[MEMORY]} growths and {counts[THREAD]} threads refused, each by a run of its own")


def refused_memory(checks: Checks) -> None:
    library = allocator(checks)
    if library is None:
        print("refused memory is left out, since no cc makes the allocator here")
        return
    given = rows(checks)
    found, (growths, _, _) = ran_refused(checks, library, given[0][1], 0)
    if not growths and found == (0, given[0][2], b""):
        print("refused memory is left out, since the program's memory doesn't come from a preloaded allocator here")
        return
    for what, words, out in given:
        refuse_each(checks, library, what, words, out)

"""Many workers on few buckets, and many callers on one register and one bucket: they meet at almost every call."""
import random

import fold
import generator
import scripts
from running import Checks

TRIALS = 200
SIZES = ((10, 1), (20, 1), (30, 2), (34, 4), (45, 8), (75, 16))  # datagrams and buckets; 75 have records of one flow twice
TALLIES = 40
SCRIPTS = 6


def workers(choose: random.Random) -> list:
    return ["--workers", str(choose.randrange(2, 65))]


def trials_agree(checks: Checks, choose: random.Random) -> None:
    """Trials by 2 to 64 workers print what one worker prints, which is the report's last line."""
    alone = {}
    for n, buckets in SIZES:
        ran = checks.ran(["trial", "--workers", "1", "--flows", "1024", "--buckets", str(buckets), "7", str(n)])
        alone[n] = ran.stdout
        wanted = fold.report([generator.datagrams(7, n)]).splitlines(keepends=True)[-1]
        checks.is_same(f"a trial of {n} datagrams by one worker", (ran.returncode, ran.stdout, ran.stderr), (0, wanted, b""))
    for i in range(TRIALS):
        n, buckets = SIZES[i % len(SIZES)]
        words = ["trial", *workers(choose), "--flows", "1024", "--buckets", str(buckets), str(choose.getrandbits(64)), str(n)]
        checks.ends(f"few buckets, {words}", words, 0, alone[n])


def tallies_agree(checks: Checks, choose: random.Random) -> None:
    """Records of very few flows, so that workers change the same pair at the same time."""
    for _ in range(TALLIES):
        keys = [fold.random_key(choose) for _ in range(choose.choice((1, 2, 3, 8, 40)))]
        data = fold.export(choose, keys, 2_000)
        words = ["tally", *workers(choose), "--flows", "40", "--buckets", str(choose.choice((1, 2))), checks.file("crowded", data)]
        checks.ends(f"{len(keys)} flows, {words}", words, 0, fold.report([data]))


def callers_agree(checks: Checks, choose: random.Random) -> None:
    """64 callers on one register and one bucket: an order explains what they are told."""
    for i in range(SCRIPTS):
        checks.explains(f"64 callers on one register and one bucket, {i}", scripts.crowded_script(choose, 64, 8), 4096, 1)
    checks.explains("swaps of 64 callers", scripts.many_swaps(64, 100), 4096, 1)


def stress(checks: Checks) -> None:
    choose = random.Random(31)
    trials_agree(checks, choose)
    tallies_agree(checks, choose)
    callers_agree(checks, choose)

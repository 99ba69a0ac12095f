"""Regular keys: flows whose addresses differ only in their upper bytes.

With 2^16 buckets they stand in few chains, and the tally takes minutes; a prime number of buckets spreads them.
"""
import resource

import fold
from running import Checks

FLOWS = 60_000
BUCKETS = 65_521  # the greatest prime below 2^16
SECONDS = 10  # of a processor that the tally may take; it needs some tenths of one


def regular_flows() -> bytes:
    """A record of each flow from an address a.b.0.1."""
    records = [fold.record(i << 16 | 1, 0x0A000001, 1, 1 + i % 7, 40 * i, 1000, 2000, 1234, 80, 6, 0) for i in range(FLOWS)]
    return b"".join(fold.datagram(records[at:at + 30]) for at in range(0, FLOWS, 30))


def within_seconds() -> None:
    resource.setrlimit(resource.RLIMIT_CPU, (SECONDS, SECONDS))


def regular_keys(checks: Checks) -> None:
    data = regular_flows()
    name = checks.file("regular.nf5", data)
    for workers in ("1", "4"):
        words = ["tally", "--workers", workers, "--flows", str(FLOWS), "--buckets", str(BUCKETS), name]
        checks.ends(f"{FLOWS} regular flows by {workers} workers, within {SECONDS} s", words, 0, fold.report([data]), before=within_seconds)

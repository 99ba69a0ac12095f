"""The program, run from outside, and how its checks are counted."""
import os
import resource
import subprocess
import sys

import orders

TOP = os.path.dirname(os.path.dirname(os.path.abspath(__file__)))
USAGE = (
    "flow_tally: usage: tally [--workers W] [--flows F] [--buckets B] FILE... or drive [--buckets B] [--share Q] FILE"
    " or trial [--workers W] [--flows F] [--buckets B] START N\n"
)


# A program of a crate, and words with which `rt run` ends at once.
PROGRAMS = {"flow_tally": ["tally", "data/one_record.nf5"], "visit_counter": ["4", "8", "7"], "stock_room": ["2", "7", "1", "5", "3", "5", "2"]}


def newest_source() -> float:
    """When a source of the programs was changed last, in seconds since 1970."""
    newest = os.path.getmtime(os.path.join(TOP, "crates.txt"))
    for crate in os.scandir(os.path.join(TOP, "crates")):
        for kind in ("src", "specs", "proofs"):
            for folder, _, names in os.walk(os.path.join(crate.path, kind)):
                newest = max(newest, os.path.getmtime(folder), *(os.path.getmtime(os.path.join(folder, name)) for name in names))
    return newest


def built_program(name: str = "flow_tally") -> str:
    """The program that `rt ci` or `rt run` built from the sources as they are."""
    folder, words = os.path.join(TOP, "crates", name), ["rt", "run", "--", *PROGRAMS[name]]
    program = os.path.join(folder, "out", name)
    if not os.path.isfile(program):
        subprocess.run(words, cwd=folder, stdout=subprocess.DEVNULL, check=True)
    elif os.path.getmtime(program) < newest_source():
        sys.exit(f"checks: {program} is older than its sources; build it: (cd crates/{name} && {' '.join(words)})")
    return program


class Checks:
    """Runs the program in a folder of its own, and counts what wasn't as it must be."""

    def __init__(self, program: str, folder: str) -> None:
        self.program = program
        self.folder = folder
        self.seconds = 120  # that a run may take
        self.made = 0
        self.failed = 0

    def file(self, name: str, data: bytes) -> str:
        with open(os.path.join(self.folder, name), "wb") as out:
            out.write(data)
        return name

    def ran(self, words: list, **how) -> subprocess.CompletedProcess:
        """The program, run with these words; it has no status where it doesn't end in time."""
        words = [self.program, *words]
        try:
            return subprocess.run(
                words, cwd=self.folder, stdin=subprocess.DEVNULL, timeout=self.seconds, check=False, env=how.get("env"),
                stdout=how.get("stdout", subprocess.PIPE), stderr=how.get("stderr", subprocess.PIPE), preexec_fn=how.get("before"),
            )
        except subprocess.TimeoutExpired:
            return subprocess.CompletedProcess(words, None, b"", b"")

    def ends(self, what: str, words: list, status: int, out: bytes = b"", err: str = "", **how) -> None:
        """The program, run with these words, ends with this status and writes this to its streams."""
        ran = self.ran(words, **how)
        self.is_same(what + ": status", ran.returncode, status)
        if "stdout" not in how:
            self.is_same(what + ": standard output", ran.stdout, out)
        if "stderr" not in how:
            self.is_same(what + ": standard error", ran.stderr, err.encode())

    def ends_or_wants_memory(self, what: str, words: list, out: bytes, mebibytes: int, enough: int) -> None:
        """The program, run within so much memory, writes this.

        Where that is less than enough, it may say that memory ran out instead, and write nothing.
        """
        ran = self.ran(words, before=lambda: keep_within(mebibytes))
        done, wants = (0, out, b""), (10, b"", b"flow_tally: out of memory\n")
        found = (ran.returncode, ran.stdout, ran.stderr)
        may_want = mebibytes < enough and found == wants
        self.is_same(f"{what}, within {mebibytes} MiB", found, wants if may_want else done)

    def explains(self, what: str, script: bytes, share: int, buckets: int) -> None:
        """An order of the script's calls explains what the program writes."""
        words = ["drive", "--share", str(share), "--buckets", str(buckets), self.file("script", script)]
        ran = self.ran(words)
        self.is_same(f"a script, {what}: status and standard error", (ran.returncode, ran.stderr), (0, b""))
        self.is_same(f"a script, {what}: an order explains it", orders.is_explained(script, ran.stdout, share, buckets), True)

    def is_same(self, what: str, found, wanted) -> None:
        self.made += 1
        if found != wanted:
            self.failed += 1
            print(f"FAILED {what}: {shown(found)}, and not {shown(wanted)}")


def shown(value) -> str:
    text = repr(value)
    return text if len(text) <= 120 else f"{text[:120]}.. ({len(value)} long)"


def closed_pipe() -> int:
    """The writing end of a pipe that nobody reads."""
    reader, writer = os.pipe()
    os.close(reader)
    return writer


def keep_within(mebibytes: int) -> None:
    """This process takes no more memory from now on."""
    resource.setrlimit(resource.RLIMIT_AS, (mebibytes << 20, mebibytes << 20))


def little_memory() -> None:
    keep_within(64)

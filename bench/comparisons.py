"""What compare.py runs: the forms of registers and tables, and the calls that each of them makes."""
import argparse
from typing import NamedTuple

from programs import NUMBERS_A_THREAD, THREADS, compile_plain, proved_program
from write_stream import SHAPES, write_stream

# percent of changes, and the word of such calls
REGISTER_KINDS = ((0, "load"), (5, "few"), (50, "mix"))
TABLE_KINDS = ((0, "find"), (5, "few"), (50, "sum"))
REGISTERS = (16, 64)
# keys, and buckets; before the calls of `find` and `few` every second key is there, so there are two buckets for each
SIZES = ((1_000, 1 << 10), (1_000_000, 1 << 20))
SHORT_SIZES = ((1_000, 1 << 10), (20_000, 1 << 14))
# keys of which 65,536 are there, and buckets for one and for 64 of those
REGULAR_KEYS = 1 << 17
REGULAR_BUCKETS = ((1, 65_521), (64, 1_021))
REGULAR_PART = 8  # of the calls of other streams one in so many: a chain of 64 takes that much longer
# nodes of each thread beyond those that hold keys for good; a scan comes once in so many changes
SPARE = 4_096
MOST_SHARE = 1 << 22


class Stream(NamedTuple):
    """A file of the numbers of so many registers or keys, of this shape."""
    path: str
    count: int
    most: int
    shape: str
    buckets: int


class Case(NamedTuple):
    """The calls of one run: where it stands in the table, and the words of the command."""
    size: str
    name: str
    percent: int
    threads: int
    kind: str
    stream: Stream
    words: list[str]

    @property
    def row(self) -> tuple:
        return self.size, self.name, self.percent

    @property
    def key(self) -> tuple:
        return self.size, self.name, self.percent, self.threads


def stream_in(folder: str, calls: int, most: int, shape: str, buckets: int = 0) -> Stream:
    return Stream(f"{folder}/{shape}_{most}_{buckets}", min(calls, NUMBERS_A_THREAD) * max(THREADS), most, shape, buckets)


def write_streams(cases: list[Case]) -> None:
    """Writes the file of each stream, once."""
    for stream in dict.fromkeys(case.stream for case in cases):
        write_stream(*stream)


def register_forms(folder: str, asked: argparse.Namespace) -> dict[str, list[str]]:
    """The commands of the forms of registers, by their names."""
    other = compile_plain(folder, "other_registers", asked, libraries=("-latomic",))
    return {
        "proved": [proved_program("register_speed")],
        "C++, same steps": [compile_plain(folder, "registers", asked)],
        "mutex": [other, "mutex"],
        "spin lock": [other, "spin"],
        "seqlock": [other, "seqlock"],
        "`std::atomic`": [other, "atomic"],
        "one's own": [other, "own"],
    }


def table_forms(folder: str, asked: argparse.Namespace, tbb: bool) -> dict[str, list[str]]:
    """The commands of the forms of tables, by their names."""
    flags, libraries = (("-DWITH_TBB",), ("-ltbb",)) if tbb else ((), ())
    other = compile_plain(folder, "other_tables", asked, flags, libraries)
    forms = {
        "proved": [proved_program("table_speed")],
        "C++, same steps": [compile_plain(folder, "table", asked)],
        "sharded `unordered_map`": [other, "sharded"],
    }
    return forms | {"TBB": [other, "tbb"]} if tbb else forms


def register_cases(folder: str, asked: argparse.Namespace) -> list[Case]:
    cases = []
    for registers in REGISTERS:
        for shape in SHAPES:
            stream = stream_in(folder, asked.calls, registers, shape)
            for percent, kind in REGISTER_KINDS:
                for threads in THREADS:
                    words = [str(n) for n in (threads, registers, asked.calls, SPARE)]
                    cases.append(Case(str(registers), shape, percent, threads, kind, stream, [*words, kind, stream.path]))
    return cases


def share_of(keys: int, calls: int, threads: int) -> int:
    """Nodes of each thread with which no call is ever short of them: for its part of the keys that are there before, and for each key that it adds."""
    return min(-(-keys // (2 * threads)) + min(keys, calls // 2) + SPARE, MOST_SHARE)


def cases_of_table(keys: int, buckets: int, name: str, kinds: tuple, stream: Stream, calls: int) -> list[Case]:
    cases = []
    for percent, kind in kinds:
        for threads in THREADS:
            words = [str(n) for n in (threads, buckets, keys, calls, share_of(keys, calls, threads))]
            cases.append(Case(f"{keys:,}", name, percent, threads, kind, stream, [*words, kind, stream.path]))
    return cases


def table_cases(folder: str, asked: argparse.Namespace) -> list[Case]:
    """All mixes of uniform and Zipf streams; and finds of keys that are first in their bucket, and of regular ones in short and long chains."""
    cases = []
    sizes = SHORT_SIZES if asked.short else SIZES
    for keys, buckets in sizes:
        for shape in SHAPES:
            cases += cases_of_table(keys, buckets, shape, TABLE_KINDS, stream_in(folder, asked.calls, keys, shape), asked.calls)
    for keys, buckets in sizes:
        stream = stream_in(folder, asked.calls, keys, "lone", buckets)
        cases += cases_of_table(keys, buckets, "first in their bucket", TABLE_KINDS[:1], stream, asked.calls)
    for count, buckets in REGULAR_BUCKETS:
        calls = asked.calls // REGULAR_PART
        stream = stream_in(folder, calls, REGULAR_KEYS, "regular")
        cases += cases_of_table(REGULAR_KEYS, buckets, f"regular, {count} a bucket", TABLE_KINDS[:1], stream, calls)
    return cases

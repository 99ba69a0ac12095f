#!/usr/bin/env python3
"""Times the proved programs beside the yardsticks by the same steps and beside what a user would take instead.

usage: compare.py [--short] [--minutes N] [--rounds N] [--calls N] [--table FILE] [--data FILE] [--compiler NAME] [--define NAME]..

All programs make the same calls with the same stream files. A round runs each of them once with each kind of call, stream and number of threads, so
what stands beside each other ran within seconds; of so many rounds (5) the best run counts, and no round begins that wouldn't end within the
minutes (10). The tables go to --table, else to the standard output; --data is what plot_compare.py draws.

The proved programs are crates/register_speed/out/register_speed and crates/table_speed/out/table_speed, which `rt run` leaves there. --short has
few calls, one round and small objects: a look at whether all runs.
"""
import argparse
import os
import pathlib
import sys
import tempfile
import time
from typing import NamedTuple

from comparisons import Case, register_cases, register_forms, table_cases, table_forms, write_streams
from programs import THREADS, add_options, compiles_tbb, speed_of, told_by

# calls whose effect hangs on what other threads do
SWAPS_OR_SUMS = ("few", "mix", "sum")


class Job(NamedTuple):
    """A table: its cases, and the commands of its forms."""
    head: str
    cases: list[Case]
    forms: dict[str, list[str]]


def run_once(command: list[str], case: Case) -> dict:
    """What the line of a run told. A line with other calls than were asked ends the script."""
    line, told = told_by(command, case.words)
    made = int(told.get("calls", 0)) + int(told.get("filled", 0))
    if made == 0 or int(told["done"]) != made:
        raise SystemExit(f"{' '.join(command)} {' '.join(case.words)}: {line}")
    return told


def check_counts(changes: dict, case: Case) -> None:
    """All forms have to make as many changes, where other threads can't make it another number."""
    if (case.threads == 1 or case.kind not in SWAPS_OR_SUMS) and len(set(changes.values())) > 1:
        raise SystemExit(f"{' '.join(case.words)}: the forms differ in their changes: {changes}")


def run_round(jobs: list[Job], best: dict) -> None:
    """Runs each form with each case, and keeps what is faster than before."""
    for job in jobs:
        for case in job.cases:
            changes = {}
            for name, command in job.forms.items():
                told = run_once(command, case)
                changes[name] = told["changes"]
                best[case.key, name] = max(best.get((case.key, name), 0.0), speed_of(told))
            check_counts(changes, case)


def measure(jobs: list[Job], asked: argparse.Namespace, begun: float) -> tuple[dict, int]:
    """The best speed of each case and form, and how many rounds there were."""
    best: dict = {}
    longest = 0.0
    for rounds in range(asked.rounds):
        start = time.monotonic()
        if rounds > 0 and start + longest > begun + 60 * asked.minutes:
            return best, rounds
        run_round(jobs, best)
        longest = max(longest, time.monotonic() - start)
        print(f"round {rounds + 1}: {time.monotonic() - start:.0f} s", file=sys.stderr)
    return best, asked.rounds


def shown(speed: float) -> str:
    return f"{speed:.1f}" if speed >= 1 else f"{speed:.2f}"


def table_of(job: Job, best: dict) -> list[str]:
    """A row for each size, stream and percentage: in each form's cell the speeds, by the number of threads."""
    lines = [f"| {job.head} | stream | changes | " + " | ".join(job.forms) + " |", "|" + "---|" * (3 + len(job.forms))]
    for row in dict.fromkeys(case.row for case in job.cases):
        cells = [" / ".join(shown(best[(*row, n), name]) for n in THREADS) for name in job.forms]
        size, stream, percent = row
        lines.append(f"| {size} | {stream} | {percent} % | " + " | ".join(cells) + " |")
    return lines


def data_of(jobs: list[Job], best: dict) -> str:
    """A line for each speed: object, size, stream, percent, threads, form and million calls a second, with tabs between them."""
    lines = ["object\tsize\tstream\tpercent\tthreads\tform\tspeed"]
    for job in jobs:
        for case in job.cases:
            for name in job.forms:
                lines.append("\t".join([job.head, *map(str, case.key), name, f"{best[case.key, name]:.3f}"]))
    return "\n".join(lines) + "\n"


def head_of(rounds: int, tbb: bool, load: float) -> list[str]:
    return [
        f"Million calls a second of all threads together, with {' / '.join(map(str, THREADS))} threads; the best of {rounds}.",
        f"{os.cpu_count()} processors, with a load of {load:.1f} before the first run.",
        f"TBB (libtbb-dev) was {'found' if tbb else 'not found'}; `std::atomic` takes libatomic's locks.",
        "",
    ]


def asked_words() -> argparse.Namespace:
    words = argparse.ArgumentParser(description=__doc__.split("\n")[0])
    words.add_argument("--short", action="store_true", help="few calls, one round, small objects")
    words.add_argument("--minutes", type=float, default=10, help="no round begins that wouldn't end by then")
    words.add_argument("--rounds", type=int, help="the most rounds: 5, or 1 where it is short")
    words.add_argument("--calls", type=int, help="timed calls of each thread: 500,000, or 20,000 where it is short")
    words.add_argument("--table", help="a file for the tables")
    words.add_argument("--data", help="a file for plot_compare.py")
    add_options(words)
    asked = words.parse_args()
    asked.calls = asked.calls or (20_000 if asked.short else 500_000)
    asked.rounds = asked.rounds or (1 if asked.short else 5)
    return asked


def main() -> None:
    begun, load = time.monotonic(), os.getloadavg()[0]
    asked = asked_words()
    with tempfile.TemporaryDirectory() as folder:
        tbb = compiles_tbb(folder, asked)
        jobs = [
            Job("registers", register_cases(folder, asked), register_forms(folder, asked)),
            Job("keys", table_cases(folder, asked), table_forms(folder, asked, tbb)),
        ]
        write_streams([case for job in jobs for case in job.cases])
        best, rounds = measure(jobs, asked, begun)
    tables = head_of(rounds, tbb, load) + table_of(jobs[0], best) + [""] + table_of(jobs[1], best)
    if asked.table:
        pathlib.Path(asked.table).write_text("\n".join(tables) + "\n")
    else:
        print("\n".join(tables))
    if asked.data:
        pathlib.Path(asked.data).write_text(data_of(jobs, best))


if __name__ == "__main__":
    main()

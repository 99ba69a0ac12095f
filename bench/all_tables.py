#!/usr/bin/env python3
"""Makes all tables of docs/PERFORMANCE.md and its plots, in at most so many minutes.

usage: all_tables.py BEFORE [--out FOLDER] [--minutes N] [--only WORD]

BEFORE is the top of an earlier checkout; in both, crates/register_speed/out, crates/table_speed/out and crates/flow_tally/out have what `rt run` leaves
there. The tables come into FOLDER (/tmp/tables), a file each, beside the exports that were tallied, and the plots into docs/. The scripts run one after
the other, on a machine with nothing else to do; the last one, compare.py, makes as many rounds as there is time for in N minutes (12), but one in any
case. --only leaves out the tables without this word.
"""
import argparse
import pathlib
import subprocess
import sys
import time

from programs import TOP

HERE = pathlib.Path(__file__).resolve().parent
LEAST_MINUTES = 1.0  # for compare.py


def tables(before: str, folder: pathlib.Path) -> list[tuple[str, list[str]]]:
    """Each table's name, and the words of the script that prints it."""
    old = f"{before}/crates/flow_tally/out/flow_tally"
    exports = ["--exports", str(folder)]
    return [
        ("instructions", ["instructions.py", "--before", before]),
        ("before_after", ["before_after.py", before, str(TOP), "--runs", "5"]),
        ("tally", ["tally_table.py", "--before", old, "--runs", "5", *exports]),
        ("tally_large_pages", ["tally_table.py", "--before", old, "--runs", "3", "--huge", "--without-nfdump", *exports]),
        ("phases_before", ["tally_phases.py", "--program", old, "--runs", "3", *exports]),
        ("phases", ["tally_phases.py", "--runs", "3", *exports]),
        ("registers", ["plot_registers.py", "--runs", "3", "--calls", "1000000"]),
        ("table", ["time_table.py", "--runs", "3", "--calls", "200000"]),
        ("tally_plot", ["plot_tally.py", "--runs", "3"]),
    ]


def run(name: str, words: list[str], folder: pathlib.Path) -> None:
    start = time.monotonic()
    with open(folder / f"{name}.md", "w") as out:
        status = subprocess.run([sys.executable, str(HERE / words[0]), *words[1:]], stdout=out).returncode
    print(f"{name}: {time.monotonic() - start:.0f} s" + (f", STATUS {status}" if status else ""), flush=True)


def compare(folder: pathlib.Path, minutes: float) -> None:
    data = str(folder / "compare.tsv")
    run("compare_run", ["compare.py", "--minutes", f"{minutes:.2f}", "--table", str(folder / "compare.md"), "--data", data], folder)
    run("compare_plot", ["plot_compare.py", data], folder)


def main() -> None:
    words = argparse.ArgumentParser(description=__doc__.split("\n")[0])
    words.add_argument("before")
    words.add_argument("--out", default="/tmp/tables")
    words.add_argument("--minutes", type=float, default=12)
    words.add_argument("--only", default="", metavar="WORD")
    asked = words.parse_args()
    folder = pathlib.Path(asked.out)
    folder.mkdir(parents=True, exist_ok=True)
    end = time.monotonic() + 60 * asked.minutes
    for name, script in tables(asked.before, folder):
        if asked.only in name:
            run(name, script, folder)
    if asked.only in "compare":
        compare(folder, max(LEAST_MINUTES, (end - time.monotonic()) / 60))


if __name__ == "__main__":
    main()

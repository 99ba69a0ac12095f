#!/usr/bin/env python3
"""Times register_speed beside registers.cpp, prints a table, and draws docs/registers.svg.

usage: plot_registers.py [--calls N] [--runs N] [--registers N] [--share N] [--out FILE]
                         [--compiler NAME] [--define NAME]..

Both programs make the same calls with the same stream files, in turn; the best of the runs counts.
The proved program is crates/register_speed/out/register_speed, which `rt run` leaves there.
"""
import argparse
import pathlib
import tempfile

from panels import Form, Panel, draw
from programs import NUMBERS_A_THREAD, THREADS, TOP, add_options, compile_plain, proved_program, speed_of, told_by
from write_stream import SHAPES, write_stream

KINDS = ("load", "store", "mix")
FORMS = [Form("proved", "#1f5fa8"), Form("C++", "#c2571a", "6 4")]


def run_once(program: str, words: list[str]) -> float:
    """Million calls a second. A line with other calls than were asked ends the script."""
    line, found = told_by([program], words)
    if int(found["calls"]) != int(words[0]) * int(words[2]) or found["done"] != found["calls"]:
        raise SystemExit(f"{program} {' '.join(words)}: {line}")
    return speed_of(found)


def measure(programs: list[str], asked: argparse.Namespace, folder: str) -> dict:
    """The best speed for each shape, kind, number of threads and program."""
    best = {}
    for shape in SHAPES:
        stream = f"{folder}/{shape}"
        count = min(asked.calls, NUMBERS_A_THREAD) * max(THREADS)
        write_stream(stream, count, asked.registers, shape)
        for kind in KINDS:
            for threads in THREADS:
                words = [str(n) for n in (threads, asked.registers, asked.calls, asked.share)]
                for _ in range(asked.runs):
                    for place, program in enumerate(programs):
                        key = (shape, kind, threads, place)
                        best[key] = max(best.get(key, 0), run_once(program, [*words, kind, stream]))
    return best


def print_table(best: dict) -> None:
    names = [form.name for form in FORMS]
    print("| stream | calls | " + " | ".join(f"{n} threads, {name}" for n in THREADS for name in names) + " |")
    print("|" + "---|" * (2 + len(THREADS) * len(names)))
    for shape in SHAPES:
        for kind in KINDS:
            cells = [f"{best[shape, kind, n, place]:.1f}" for n in THREADS for place in range(len(names))]
            print(f"| {shape} | {kind} | " + " | ".join(cells) + " |")


def draw_all(best: dict, asked: argparse.Namespace) -> str:
    """A panel for each stream and kind of call."""
    panels = [
        Panel(f"{kind}, {shape}", {(form.name, n): best[shape, kind, n, place] for n in THREADS for place, form in enumerate(FORMS)})
        for shape in SHAPES
        for kind in KINDS
    ]
    title = f"million calls a second of all threads, over threads; {asked.registers} registers"
    return draw(title, panels, len(KINDS), FORMS)


def main() -> None:
    words = argparse.ArgumentParser(description=__doc__.split("\n")[0])
    words.add_argument("--calls", type=int, default=2_000_000, help="calls of each thread")
    words.add_argument("--runs", type=int, default=5)
    words.add_argument("--registers", type=int, default=16)
    words.add_argument("--share", type=int, default=64, help="nodes of each thread; few scans want many")
    words.add_argument("--out", default=str(TOP / "docs/registers.svg"))
    add_options(words)
    asked = words.parse_args()
    with tempfile.TemporaryDirectory() as folder:
        programs = [proved_program("register_speed"), compile_plain(folder, "registers", asked)]
        best = measure(programs, asked, folder)
    print_table(best)
    pathlib.Path(asked.out).write_text(draw_all(best, asked))


if __name__ == "__main__":
    main()

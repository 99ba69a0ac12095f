#!/usr/bin/env python3
"""Times tallies beside tally.cpp, prints a table, and draws docs/tally.svg.

usage: plot_tally.py [--megabytes N] [--flows N] [--runs N] [--out FILE]
                     [--compiler NAME] [--define NAME]..

The input is written by write_export.py, under both shapes. The proved program is
crates/flow_tally/out/flow_tally, which `rt run` leaves there. The best wall time of the runs counts.
"""
import argparse
import filecmp
import subprocess
import tempfile
import time

from programs import TOP, add_options, proved_program
from write_stream import SHAPES

WORKERS = (1, 2, 4)
# name, colour, how tally.cpp is compiled (None: the proved program), whether it takes a number of workers
PROGRAMS = (
    ("proved", "#1f5fa8", None, True),
    ("C++, same plan", "#c2571a", ["-DSHARED", "-DAHEAD", "-DRECLAIM"], True),
    ("C++, std::map", "#777777", [], False),
    ("C++, hashed", "#aaaaaa", ["-DHASHED"], False),
)
WIDTH, HEIGHT, LEFT, TOP_MARGIN, BAR = 900, 300, 60, 50, 22


def compile_all(folder: str, asked: argparse.Namespace) -> list[list[str]]:
    """The commands of the programs, without workers and file."""
    commands = []
    for name, _, flags, _ in PROGRAMS:
        if flags is None:
            commands.append([proved_program("flow_tally"), "tally"])
            continue
        program = f"{folder}/{name.replace(' ', '_').replace('/', '_')}"
        options = [*flags, *(f"-D{word}" for word in asked.define)]
        source = str(TOP / "bench/tally.cpp")
        subprocess.run([asked.compiler, "-O2", "-std=c++17", "-pthread", *options, "-o", program, source], check=True)
        commands.append([program])
    return commands


def words_of(command: list[str], place: int, file: str, workers: int) -> list[str]:
    if place == 0:
        return [*command, "--workers", str(workers), file]
    return [*command, file, str(workers)] if PROGRAMS[place][3] else [*command, file]


def seconds(words: list[str], out: str) -> float:
    with open(out, "wb") as report:
        start = time.monotonic()
        subprocess.run(words, check=True, stdout=report)
        return time.monotonic() - start


def measure(commands: list[list[str]], asked: argparse.Namespace, folder: str) -> dict:
    """The best time of each shape, program and number of workers; all reports have to be the same."""
    best = {}
    for shape in SHAPES:
        file, first, other = f"{folder}/{shape}.nf5", f"{folder}/first", f"{folder}/other"
        subprocess.run(["python3", str(TOP / "bench/write_export.py"), file, str(asked.megabytes), str(asked.flows), shape], check=True)
        seconds(words_of(commands[0], 0, file, 1), first)
        for _ in range(asked.runs):
            for place, command in enumerate(commands):
                for workers in WORKERS if PROGRAMS[place][3] else (1,):
                    took = seconds(words_of(command, place, file, workers), other)
                    if not filecmp.cmp(first, other, shallow=False):
                        raise SystemExit(f"{command}: another report")
                    key = (shape, place, workers)
                    best[key] = min(best.get(key, took), took)
    return best


def print_table(best: dict) -> None:
    print("| program | " + " | ".join(SHAPES) + " |")
    print("|" + "---|" * (1 + len(SHAPES)))
    for place, (name, _, _, many) in enumerate(PROGRAMS):
        for workers in WORKERS if many else (1,):
            cells = [f"{best[shape, place, workers]:.2f} s" for shape in SHAPES]
            print(f"| {name}, {workers} worker{'s' if workers > 1 else ''} | " + " | ".join(cells) + " |")


def draw(best: dict) -> str:
    """Bars of seconds, a panel for each shape."""
    most = max(best.values())
    parts = [f'<svg xmlns="http://www.w3.org/2000/svg" width="{WIDTH}" height="{HEIGHT}" font-family="sans-serif" font-size="12">',
             f'<rect width="{WIDTH}" height="{HEIGHT}" fill="white"/>']
    panel = (WIDTH - 2 * LEFT) / len(SHAPES)
    for i, shape in enumerate(SHAPES):
        x, base = LEFT + i * panel, HEIGHT - 60
        parts.append(f'<text x="{x}" y="30" font-size="14">{shape}: seconds of a whole run</text>')
        keys = [key for key in best if key[0] == shape]
        for _, place, workers in sorted(keys):
            took = best[shape, place, workers]
            height = took / most * (base - TOP_MARGIN - 15)
            parts.append(f'<rect x="{x:.1f}" y="{base - height:.1f}" width="{BAR}" height="{height:.1f}" fill="{PROGRAMS[place][1]}"/>')
            parts.append(f'<text x="{x + BAR / 2:.1f}" y="{base - height - 4:.1f}" text-anchor="middle">{took:.2f}</text>')
            if PROGRAMS[place][3]:
                parts.append(f'<text x="{x + BAR / 2:.1f}" y="{base + 16}" text-anchor="middle">{workers}</text>')
            x += BAR + 14
    x = LEFT
    for name, colour, _, _ in PROGRAMS:
        parts.append(f'<rect x="{x}" y="{HEIGHT - 24}" width="12" height="12" fill="{colour}"/>')
        parts.append(f'<text x="{x + 18}" y="{HEIGHT - 13}">{name}</text>')
        x += 190
    parts.append(f'<text x="{WIDTH - LEFT}" y="{HEIGHT - 44}" text-anchor="end">number of workers</text></svg>')
    return "\n".join(parts) + "\n"


def main() -> None:
    words = argparse.ArgumentParser(description=__doc__.split("\n")[0])
    words.add_argument("--megabytes", type=int, default=64)
    words.add_argument("--flows", type=int, default=64_000)
    words.add_argument("--runs", type=int, default=5)
    words.add_argument("--out", default=str(TOP / "docs/tally.svg"))
    add_options(words)
    asked = words.parse_args()
    with tempfile.TemporaryDirectory() as folder:
        best = measure(compile_all(folder, asked), asked, folder)
    print_table(best)
    with open(asked.out, "w") as out:
        out.write(draw(best))


if __name__ == "__main__":
    main()

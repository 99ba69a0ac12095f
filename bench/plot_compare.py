#!/usr/bin/env python3
"""Draws what compare.py measured: docs/compare_registers.svg and docs/compare_tables.svg.

usage: plot_compare.py DATA [--folder FOLDER]
"""
import argparse
import csv
import pathlib

from panels import Form, Panel, draw
from programs import TOP

COLUMNS = 3
# the forms that each plot may have
FORMS = {
    "registers": [
        Form("proved", "#1f5fa8"),
        Form("C++, same steps", "#c2571a", "6 4"),
        Form("mutex", "#777777"),
        Form("spin lock", "#2e8b57"),
        Form("seqlock", "#8a4fbe"),
        Form("`std::atomic`", "#b8a000", "2 3"),
        Form("one's own", "#000000", "1 4"),
    ],
    "keys": [
        Form("proved", "#1f5fa8"),
        Form("C++, same steps", "#c2571a", "6 4"),
        Form("sharded `unordered_map`", "#777777"),
        Form("TBB", "#2e8b57"),
    ],
}
FILES = {"registers": "compare_registers.svg", "keys": "compare_tables.svg"}


def panels_of(rows: list[dict], thing: str) -> list[Panel]:
    """A panel for each size, stream and percentage, in their order."""
    panels: dict[str, Panel] = {}
    for row in rows:
        if row["object"] == thing:
            title = f"{row['size']} {thing}, {row['stream']}, {row['percent']} %"
            panel = panels.setdefault(title, Panel(title, {}))
            panel.speeds[row["form"], int(row["threads"])] = float(row["speed"])
    return list(panels.values())


def main() -> None:
    words = argparse.ArgumentParser(description=__doc__.split("\n")[0])
    words.add_argument("data")
    words.add_argument("--folder", default=str(TOP / "docs"))
    asked = words.parse_args()
    with open(asked.data, newline="") as data:
        rows = list(csv.DictReader(data, delimiter="\t"))
    for thing, forms in FORMS.items():
        panels = panels_of(rows, thing)
        there = [form for form in forms if any(form.name == name for panel in panels for name, _ in panel.speeds)]
        title = "million calls a second of all threads, over threads; the percentage of changes is in each title"
        (pathlib.Path(asked.folder) / FILES[thing]).write_text(draw(title, panels, COLUMNS, there))


if __name__ == "__main__":
    main()

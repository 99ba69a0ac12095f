"""The recipes of docs/RECIPES.md, run by the text that stands there, and what each must print.

A recipe is a block of commands after a line `<!-- recipe NAME: TOOL.. -->`. What it prints for the sample
stands in a block after `<!-- printed -->`; where there is none it prints nothing. With a bad file, with none
and on a full disk its status isn't 0, and its results aren't there.
"""
import datetime
import functools
import os
import random
import re
import resource
import shlex
import shutil
import signal
import subprocess
import xml.etree.ElementTree
from typing import NamedTuple

import fold
import generator
import trials
from running import Checks

MARKED = re.compile(r"<!-- recipe (\w+):([\w ]*) -->\n```sh\n(.*?)```\n(?:<!-- printed -->\n```\n(.*?)```\n)?", re.DOTALL)
SAMPLE = os.path.join("crates", "flow_tally", "data", "softflowd-1.1.0.nf5")
COLUMNS = "source,destination,source_port,destination_port,protocol,tos,input,packets,octets,first,last,flags"
PACKETS, OCTETS, FIRST, LAST, FLAGS = 7, 8, 9, 10, 11
TORN = 40_000  # where the torn file ends
RESULTS = {  # what a recipe makes, and what isn't there where it fails
    "report": ["report.txt", "flows.txt"], "torn": ["front.nf5"], "talkers": [], "sources": [], "csv": ["report.csv"],
    "picture": ["top.svg"], "files": [], "reports": ["report.txt", "flows.txt"], "sql": ["flows.db"], "times": [],
    "letters": [], "syn": [], "timeline": ["timeline.svg"], "losses": [], "alarm": [], "hours": ["losses.svg"],
}


class Recipe(NamedTuple):
    name: str
    tools: list
    commands: str
    printed: str


def recipes_in(document: str) -> list:
    return [Recipe(name, tools.split(), commands, printed or "") for name, tools, commands, printed in MARKED.findall(document)]


def borders(data: bytes) -> list:
    """Where the datagrams of a well-formed file begin, and where the last one ends."""
    found = [0]
    while found[-1] < len(data):
        found.append(found[-1] + 24 + 48 * fold.HEADER.unpack_from(data, found[-1])[1])
    return found


def thirds(data: bytes) -> list:
    """The file in three files."""
    places = borders(data)
    cuts = [places[(len(places) - 1) * part // 3] for part in range(4)]
    return [data[start:end] for start, end in zip(cuts, cuts[1:])]


def cut(data: bytes) -> dict:
    """The files that the recipe cuts an export into, by name."""
    return {f"export-{i}.nf5": part for i, part in enumerate(thirds(data))}


def percent_lost(came: int, lost: int) -> float:
    return 100 * lost / (came + lost) if came + lost else 0.0


class Expected:
    """What the recipes print of an export, and the files that they leave."""

    def __init__(self, data: bytes) -> None:
        self.data = data
        report = fold.report([data]).decode().splitlines(keepends=True)
        self.last = report[-1]
        self.lines = [line for line in report if line[0].isdigit()]
        self.engines = [line for line in report if line.startswith("engine ")]
        self.flows = [line.split() for line in self.lines]

    def largest(self, count: int) -> list:
        order = sorted(range(len(self.flows)), key=lambda i: (-int(self.flows[i][OCTETS]), i))
        return order[:count]

    def talkers(self) -> str:
        return "".join(self.lines[i] for i in self.largest(5))

    def sources(self) -> str:
        sums = {}
        for flow in self.flows:
            sums[flow[0]] = sums.get(flow[0], 0) + int(flow[OCTETS])
        rows = sorted((-octets, source) for source, octets in sums.items())
        return "".join(f"{-octets} {source}\n" for octets, source in rows[:5])

    def sheet(self) -> list:
        return [COLUMNS + "\n"] + [",".join(flow) + "\n" for flow in self.flows]

    def protocols(self) -> str:
        sums = {}
        for flow in self.flows:
            count, packets, octets = sums.get(flow[4], (0, 0, 0))
            sums[flow[4]] = (count + 1, packets + int(flow[PACKETS]), octets + int(flow[OCTETS]))
        rows = sorted(sums.items(), key=lambda row: -row[1][2])
        return "".join(f"{protocol} {count} {packets} {octets}\n" for protocol, (count, packets, octets) in rows)

    def times(self) -> str:
        """The moments of the flows of the most octets, by their fields as SQL orders them."""
        def read(moment: str) -> str:
            seconds, thousandths = divmod(int(moment), 1000)
            return (datetime.datetime(1970, 1, 1) + datetime.timedelta(seconds=seconds)).isoformat() + f".{thousandths:03}Z"
        rows = sorted(self.flows, key=lambda flow: (-int(flow[OCTETS]), flow[:2], [int(field) for field in flow[2:7]]))
        return "".join(" ".join([flow[0], flow[2], flow[OCTETS], read(flow[FIRST]), read(flow[LAST]), flow[FLAGS]]) + "\n" for flow in rows[:5])

    def letters(self) -> str:
        """The first flows' flags as letters."""
        def spelled(flags: str) -> str:
            return "".join(letter if int(flags) >> bit & 1 else "." for bit, letter in enumerate("FSRPAU"))
        return "".join(" ".join([flow[0], flow[2], flow[1], flow[3], spelled(flow[FLAGS])]) + "\n" for flow in self.flows[:3])

    def syn(self) -> str:
        """The flows of TCP that only ever sent SYN."""
        found = [f"{flow[0]} {flow[1]} {flow[3]}\n" for flow in self.flows if flow[4] == "6" and flow[FLAGS] == "2"]
        return "".join(found[:3]) + f"{len(found)}\n"

    def seconds(self) -> bytes:
        """How many flows began in each second."""
        counts = {}
        for flow in self.flows:
            second = int(flow[FIRST]) // 1000
            counts[second] = counts.get(second, 0) + 1
        return "".join(f"{second} {counts[second]}\n" for second in sorted(counts)).encode()

    def losses(self) -> str:
        """What each engine lost, in percent."""
        rows = []
        for _, kind, number, _, came, _, lost, _, resets in map(str.split, self.engines):
            rows.append(f"{kind} {number} {came} {lost} {percent_lost(int(came), int(lost)):.2f}% {resets}\n")
        return "".join(rows)

    def alarm(self) -> str:
        """The engines that lost more than a flow in a thousand, or whose numbers went back."""
        def is_bad(words: list) -> bool:
            return int(words[8]) > 0 or 1000 * int(words[6]) > int(words[4]) + int(words[6])
        return "".join(line for line in self.engines if is_bad(line.split()))

    def came_and_lost(self) -> tuple:
        """How many flows of all engines came, and how many never did."""
        engines = [line.split() for line in self.engines]
        return sum(int(words[4]) for words in engines), sum(int(words[6]) for words in engines)

    def hours(self) -> bytes:
        """The loss of each of the three files in percent."""
        parts = [Expected(part).came_and_lost() for part in thirds(self.data)]
        return "".join(f"{i} {percent_lost(*part):.3f}\n" for i, part in enumerate(parts)).encode()

    def front(self) -> bytes:
        """The datagrams that are whole in the torn file."""
        return self.data[:max(place for place in borders(self.data) if place <= TORN)]

    def refusal(self, number: int) -> str:
        """What is told of the torn file, as the file of that number."""
        offset = len(self.front())
        left, wanted = TORN - offset - 24, 48 * fold.HEADER.unpack_from(self.data, offset)[1]
        cause = f"short header, {left + 24} bytes left" if left < 0 else f"short records, {left} bytes left, {wanted} wanted"
        return f"flow_tally: file {number} offset {offset}: {cause}\n"

    @functools.cached_property
    def printed(self) -> dict:
        return {
            "sample": "", "report": self.last, "tear": "", "torn": self.refusal(1) + Expected(self.front()).last,
            "talkers": self.talkers(), "sources": self.sources(), "csv": "".join(self.sheet()[:3]), "picture": "",
            "letters": self.letters(), "syn": self.syn(), "timeline": "", "losses": self.losses(), "alarm": self.alarm(), "cut": "",
            "files": self.last, "reports": "", "hours": "", "sql": self.protocols(), "times": self.times(), "trial": trials.MILLION + "\n",
        }

    def files(self, name: str) -> dict:
        """The files that a recipe leaves, by name."""
        if name == "report":
            return {"report.txt": ("".join(self.lines + self.engines) + self.last).encode(), "flows.txt": "".join(self.lines).encode()}
        if name == "torn":
            return {"front.nf5": self.front()}
        if name == "csv":
            return {"report.csv": "".join(self.sheet()).encode()}
        if name == "cut":
            return cut(self.data)
        if name == "hours":
            return {"hours.part": self.hours()}
        if name == "timeline":
            return {"seconds.part": self.seconds()}
        if name == "reports":
            return {"flows.txt": "".join(line for part in thirds(self.data) for line in Expected(part).lines).encode()}
        return {}

    def bars(self) -> list:
        """The labels of a picture of the top talkers, from above."""
        flows = [self.flows[i] for i in self.largest(10)]
        return [f"{flow[0]}:{flow[2]} to {flow[1]}:{flow[3]}" for flow in flows]


def lay_out(checks: Checks, name: str, files: dict) -> str:
    """A folder in which a recipe finds the program, as in the checkout, and these files."""
    folder = os.path.join(checks.folder, name)
    program = f'#!/bin/sh\nexec {shlex.quote(checks.program)} "$@"\n'.encode()
    for path, content in {**files, "run": program}.items():
        os.makedirs(os.path.dirname(os.path.join(folder, path)), exist_ok=True)
        with open(os.path.join(folder, path), "wb") as out:
            out.write(content)
    os.chmod(os.path.join(folder, "run"), 0o755)
    return folder


def content_of(folder: str, name: str) -> bytes:
    """A file's bytes; a message where there is none."""
    path = os.path.join(folder, name)
    if not os.path.isfile(path):
        return b"no such file"
    with open(path, "rb") as file:
        return file.read()


def labels_of(folder: str) -> list:
    """The texts of top.svg that are labels of bars."""
    root = xml.etree.ElementTree.parse(os.path.join(folder, "top.svg")).getroot()
    texts = ["".join(element.itertext()).strip() for element in root.iter("{http://www.w3.org/2000/svg}text")]
    return [text for text in texts if " to " in text]


def ran_in(folder: str, recipe: Recipe, **how) -> subprocess.CompletedProcess:
    return subprocess.run(
        ["sh", "-c", recipe.commands], cwd=folder, stdin=subprocess.DEVNULL, stdout=subprocess.PIPE, timeout=120, text=True,
        env={**os.environ, "LC_ALL": "C"}, stderr=how.get("stderr", subprocess.PIPE), preexec_fn=how.get("before"),
    )


def prints(checks: Checks, what: str, folder: str, recipe: Recipe, wanted: str) -> None:
    ran = ran_in(folder, recipe, stderr=subprocess.STDOUT)
    checks.is_same(f"{what}: status", ran.returncode, 1 if recipe.name == "alarm" and wanted else 0)
    checks.is_same(f"{what}: printed", ran.stdout, wanted)


def run_all(checks: Checks, name: str, expected: Expected, found: list) -> None:
    """All recipes in turn, in one folder."""
    folder = lay_out(checks, f"recipes_{name}", {SAMPLE: expected.data})
    for recipe in found:
        what = f"recipe {recipe.name}, {name}"
        prints(checks, what, folder, recipe, expected.printed[recipe.name])
        for file, content in expected.files(recipe.name).items():
            checks.is_same(f"{what}: {file}", content_of(folder, file), content)
        if recipe.name == "picture":
            checks.is_same(f"{what}: labels", labels_of(folder), expected.bars())


def fails(checks: Checks, what: str, folder: str, recipe: Recipe, **how) -> subprocess.CompletedProcess:
    """The recipe fails in a folder that has older results: it prints no result, and leaves none, not even these."""
    for name in RESULTS[recipe.name]:
        with open(os.path.join(folder, name), "w", encoding="utf-8") as out:
            out.write("older\n")
    others = set(os.listdir(folder)) - set(RESULTS[recipe.name])
    ran = ran_in(folder, recipe, **how)
    left = [name for name in sorted(set(os.listdir(folder)) - others) if not name.endswith(".part")]
    checks.is_same(f"{what}: status is 0", ran.returncode == 0, False)
    checks.is_same(f"{what}: printed", ran.stdout, "")
    checks.is_same(f"{what}: results", left, [])
    return ran


def refuse_torn_files(checks: Checks, expected: Expected, found: list) -> None:
    """One export is torn, and the second of three files."""
    torn = expected.data[:TORN]
    for recipe in found:
        if recipe.name in ("report", "alarm", "files", "reports", "hours"):
            what = f"recipe {recipe.name}, a torn file"
            folder = lay_out(checks, f"torn_{recipe.name}", {"export.nf5": torn, **cut(expected.data), "export-1.nf5": torn})
            ran = fails(checks, what, folder, recipe)
            number = 2 if recipe.name == "files" else 1
            checks.is_same(f"{what}: told", (ran.returncode, ran.stderr), (6, expected.refusal(number)))


def miss_files(checks: Checks, found: list) -> None:
    """There are no exports, and no flows, as after a refusal."""
    for recipe in found:
        if recipe.name in RESULTS:
            fails(checks, f"recipe {recipe.name}, no files", lay_out(checks, f"missing_{recipe.name}", {}), recipe)


def write_at_most(count: int) -> None:
    """No file of this process takes more bytes from now on, as on a full disk."""
    signal.signal(signal.SIGXFSZ, signal.SIG_IGN)
    resource.setrlimit(resource.RLIMIT_FSIZE, (count, count))


def fill_disks(checks: Checks, found: list) -> None:
    """No file takes more than the first lines of ten flows; a picture's file takes the flows, but no picture."""
    expected = Expected(generator.datagrams(3, 4))
    files = {"export.nf5": expected.data, "torn.nf5": expected.data[:-1], "flows.txt": "".join(expected.lines).encode(), **cut(expected.data)}
    for recipe in found:
        if recipe.name in RESULTS:
            count = 1_000 if recipe.name == "picture" else 100
            folder = lay_out(checks, f"full_{recipe.name}", files)
            fails(checks, f"recipe {recipe.name}, a full disk", folder, recipe, before=lambda: write_at_most(count))


def keep_large_sums(checks: Checks, found: list) -> None:
    """Lines of numbers up to 2^61, as of many merged reports: no digit is lost in top talkers and in SQL."""
    folder = os.path.join(checks.folder, "recipes_large")
    os.mkdir(folder)
    octets = [2**61 - 1, 2**61 - 2, 2**53 + 1, 2**61 - 3, 2**53, 1]
    expected = Expected(b"")
    expected.flows = [f"10.0.0.{i} 10.0.0.9 1 2 6 0 1 {2**54 + i} {number} 0 {i} {2**i}".split() for i, number in enumerate(octets)]
    expected.lines = [" ".join(flow) + "\n" for flow in expected.flows]
    with open(os.path.join(folder, "flows.txt"), "w", encoding="utf-8") as out:
        out.write("".join(expected.lines))
    for recipe in found:
        if recipe.name in ("talkers", "sql"):
            wanted = expected.talkers() if recipe.name == "talkers" else expected.protocols()
            prints(checks, f"recipe {recipe.name}, large sums", folder, recipe, wanted)


def with_tools(found: list) -> list:
    """The recipes whose tools are there."""
    there = []
    for recipe in found:
        missing = [tool for tool in recipe.tools if shutil.which(tool) is None]
        if missing:
            print(f"recipe {recipe.name} is left out, since there is no {' and no '.join(missing)}")
        else:
            there.append(recipe)
    return there


def recipes(checks: Checks, top: str) -> None:
    with open(os.path.join(top, "docs", "RECIPES.md"), encoding="utf-8") as file:
        document = file.read()
    with open(os.path.join(top, SAMPLE), "rb") as file:
        sample = file.read()
    found = recipes_in(document)
    checks.is_same("recipes that are marked", document.count("<!-- recipe"), len(found))
    expected = Expected(sample)
    checks.is_same("names of recipes", [recipe.name for recipe in found], list(expected.printed))
    for recipe in found:
        checks.is_same(f"recipe {recipe.name}, as it stands", recipe.printed, expected.printed.get(recipe.name))
    choose = random.Random(12)
    keys = [fold.random_key(choose) for _ in range(900)]
    there = with_tools(found)
    run_all(checks, "sample", expected, there)
    run_all(checks, "random", Expected(fold.export(choose, keys, 2_000)), there)
    run_all(checks, "generated", Expected(generator.datagrams(3, 200)), there)
    refuse_torn_files(checks, expected, there)
    miss_files(checks, there)
    fill_disks(checks, there)
    keep_large_sums(checks, there)

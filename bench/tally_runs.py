"""What the scripts that time whole tallies have in common: programs, exports, and nfdump's own file of an export."""
import filecmp
import os
import pathlib
import socket
import statistics
import subprocess
import time
from typing import NamedTuple

from programs import TOP

WORKERS = (1, 2, 4)
SHAPES = ("uniform", "zipf")
AGGREGATION = "srcip,dstip,srcport,dstport,proto,tos,inif"
PORT = 9995
AT_ONCE = 16  # datagrams that are sent before a pause


class Program(NamedTuple):
    """A program of a table: its name, its words before the file, and for which numbers of workers it runs."""
    name: str
    words: list[str]
    workers: tuple = WORKERS
    tells_all: bool = True  # whether it writes the proved program's report


def proved(name: str, program: str) -> Program:
    return Program(name, [program, "tally", "--workers", "WORKERS", "FILE"])


def plain(folder: str, name: str, options: list[str], compiler: str) -> Program:
    """tally.cpp, compiled with these options."""
    program = f"{folder}/tally{''.join(options)}"
    source = str(TOP / "bench/tally.cpp")
    subprocess.run([compiler, "-O2", "-std=c++17", "-pthread", *options, "-o", program, source], check=True)
    shared = "-DSHARED" in options
    return Program(name, [program, "FILE", *(["WORKERS"] if shared else [])], WORKERS if shared else (1,))


def nfdump() -> Program:
    """nfdump's aggregation by the same seven fields, over its own file."""
    return Program("nfdump's aggregation", ["nfdump", "-q", "-r", "KEPT", "-A", AGGREGATION], (1,), False)


def write_exports(folder: str, megabytes: int, flows: int) -> dict:
    """The exports of both shapes; those that stand in the folder are taken."""
    files = {shape: f"{folder}/{shape}_{megabytes}_{flows}.nf5" for shape in SHAPES}
    script = str(TOP / "bench/write_export.py")
    missing = {shape: file for shape, file in files.items() if not os.path.exists(file)}
    writers = [subprocess.Popen(["python3", script, f"{file}.new", str(megabytes), str(flows), shape]) for shape, file in missing.items()]
    if any([writer.wait() for writer in writers]):
        raise SystemExit("an export can't be written")
    for file in missing.values():
        os.replace(f"{file}.new", file)
    return files


def keep_by_nfdump(export: str, folder: str) -> str:
    """nfcapd's file of an export of 30-record datagrams. A datagram that was lost on the way ends the script."""
    pathlib.Path(folder).mkdir()
    words = ["nfcapd", "-l", folder, "-p", str(PORT), "-b", "127.0.0.1", "-t", "3600", "-B", str(1 << 25)]
    collector = subprocess.Popen(words, stdout=subprocess.DEVNULL, stderr=subprocess.DEVNULL)
    time.sleep(1)
    sender = socket.socket(socket.AF_INET, socket.SOCK_DGRAM)
    data, size = pathlib.Path(export).read_bytes(), 24 + 30 * 48
    for place, start in enumerate(range(0, len(data), size)):
        sender.sendto(data[start:start + size], ("127.0.0.1", PORT))
        if place % AT_ONCE == 0:
            time.sleep(0.002)
    time.sleep(2)
    collector.terminate()
    collector.wait()
    kept = str(next(pathlib.Path(folder).glob("nfcapd.[0-9]*")))
    told = subprocess.run(["nfdump", "-r", kept, "-I"], check=True, capture_output=True, text=True).stdout
    records = next(int(line.split()[1]) for line in told.splitlines() if line.startswith("Flows:"))
    if records != len(data) // size * 30:
        raise SystemExit(f"nfcapd kept {records} of {len(data) // size * 30} records")
    return kept


def run_seconds(program: Program, workers: int, file: str, kept: str, report: str) -> float:
    """The wall time of a whole run."""
    places = {"WORKERS": str(workers), "FILE": file, "KEPT": kept}
    words = [places.get(word, word) for word in program.words]
    with open(report, "wb") as out:
        start = time.monotonic()
        subprocess.run(words, check=True, stdout=out)
        return time.monotonic() - start


def same_report(first: str, other: str, program: Program) -> None:
    """Ends the script where a program that tells all wrote another report than the first one."""
    if not program.tells_all:
        return
    if not os.path.exists(first):
        os.replace(other, first)
    elif not filecmp.cmp(first, other, shallow=False):
        raise SystemExit(f"{program.name}: another report")


def medians(times: dict) -> dict:
    return {key: statistics.median(taken) for key, taken in times.items()}


def load_of_machine() -> str:
    return " / ".join(f"{load:.2f}" for load in os.getloadavg())

"""What the scripts of bench/ have in common: compiled yardsticks, and the lines of timed runs."""
import argparse
import pathlib
import subprocess

TOP = pathlib.Path(__file__).resolve().parent.parent
THREADS = (1, 2, 4)
NUMBERS_A_THREAD = 1 << 20


def add_options(words: argparse.ArgumentParser) -> None:
    """The options of how the yardsticks are compiled."""
    words.add_argument("--compiler", default="g++")
    words.add_argument("--define", action="append", default=[], metavar="NAME", help="for the yardsticks, as CLAIMED_READS or REFILL")


def compile_plain(folder: str, name: str, asked: argparse.Namespace, flags: tuple = (), libraries: tuple = ()) -> str:
    """The program of bench/NAME.cpp, compiled."""
    program = f"{folder}/{name}"
    defines = [f"-D{word}" for word in asked.define]
    source = str(TOP / f"bench/{name}.cpp")
    words = [asked.compiler, "-O2", "-std=c++17", "-pthread", *defines, *flags, "-o", program, source, *libraries]
    subprocess.run(words, check=True)
    return program


def compiles_tbb(folder: str, asked: argparse.Namespace) -> bool:
    """Whether a program with TBB compiles."""
    source = pathlib.Path(f"{folder}/tbb.cpp")
    source.write_text("#include <tbb/concurrent_hash_map.h>\nint main() { tbb::concurrent_hash_map<int, int> map; return map.size(); }\n")
    words = [asked.compiler, "-std=c++17", "-pthread", "-o", f"{folder}/tbb", str(source), "-ltbb"]
    return subprocess.run(words, capture_output=True).returncode == 0


def proved_program(name: str, top: pathlib.Path = TOP) -> str:
    """The proved program of this name, which `rt run` leaves in its crate of a checkout."""
    program = top / f"crates/{name}/out/{name}"
    if not program.exists():
        raise SystemExit(f"{program} isn't there: `rt run` in crates/{name} makes it")
    return str(program)


def told_by(command: list[str], words: list[str]) -> tuple[str, dict]:
    """The line of a timed run, and what stands in it behind each word."""
    line = subprocess.run([*command, "time", *words], check=True, capture_output=True, text=True).stdout
    told = line.split()
    return line, dict(zip(told[::2], told[1::2]))


def speed_of(told: dict) -> float:
    """Million timed calls a second."""
    return int(told["calls"]) / max(1, int(told["microseconds"]))

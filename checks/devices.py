"""Devices that fail while the program reads or writes: files, pipes, names and streams."""
import contextlib
import os
import select
import shutil
import signal
import subprocess
import time

import fold
from running import USAGE, Checks, closed_pipe

ONE = fold.datagram([fold.record(0x0A000001, 0x0A000002, 1, 12, 3400, 1000, 2000, 1234, 80, 6, 0)])
REPORT = fold.report([ONE])
FULL = fold.datagram([ONE[24:]] * 30)
NOBODY = 65534
UNREAD = 4_000  # datagrams of a file that is cut while it is read
BAD_LINE = "flow_tally: file 1 offset 0: short records, 47 bytes left, 48 wanted\n"
WRITE_FAULT = "flow_tally: output cannot be written\n"


def full_and_closed(checks: Checks) -> None:
    """An output that takes nothing, and an error stream that takes nothing: the status is the same without a message."""
    script = checks.file("script", b"callers 1\n0 store 0 5\n")
    bad = checks.file("bad.nf5", ONE[:71])
    commands = (["tally", "one.nf5"], ["drive", script], ["trial", "7", "1"])
    pipe = closed_pipe()
    with open("/dev/full", "wb") as full:
        for name, stream in (("a full device", full), ("a closed pipe", pipe)):
            for words in commands:
                checks.ends(f"{words} to {name}", words, 5, err=WRITE_FAULT, stdout=stream)
            checks.ends(f"{name} for output and messages", ["tally", "one.nf5"], 5, stdout=stream, stderr=stream)
            checks.ends(f"usage, {name} for messages", ["tally"], 2, stderr=stream)
            checks.ends(f"a bad file, {name} for messages", ["tally", bad], 6, stderr=stream)
            checks.ends(f"a report, {name} for messages", ["tally", "one.nf5"], 0, REPORT, stderr=stream)
            checks.ends(f"a bad file, {name} for output", ["tally", bad], 6, err=BAD_LINE, stdout=stream)
    os.close(pipe)


def closed_streams(checks: Checks) -> None:
    """Standard output, standard error, or all three streams are closed when the program starts: nothing is Done that wasn't written."""
    def without(*streams: int):
        return lambda: [os.close(stream) for stream in streams]
    for words in (["tally", "one.nf5"], ["trial", "7", "1"]):
        checks.ends(f"{words} without standard output", words, 5, err=WRITE_FAULT, stdout=subprocess.DEVNULL, before=without(1))
    checks.ends("a report without standard error", ["tally", "one.nf5"], 0, REPORT, before=without(2))
    checks.ends("a report without standard input", ["tally", "one.nf5"], 0, REPORT, before=without(0))
    checks.ends("usage without standard error", ["tally"], 2, before=without(2))
    checks.ends("no streams", ["tally", "one.nf5"], 5, stdout=subprocess.DEVNULL, stderr=subprocess.DEVNULL, before=without(0, 1, 2))
    checks.is_same("the file that was read without streams", content_of(checks, "one.nf5"), ONE)


def content_of(checks: Checks, name: str) -> bytes:
    with open(os.path.join(checks.folder, name), "rb") as file:
        return file.read()


def names(checks: Checks) -> None:
    """Names at the platform's limits, and one that is no UTF-8."""
    one = "one.nf5"
    longest = "a" * 255
    with contextlib.suppress(OSError):
        checks.file(longest, ONE)
        checks.ends("a name of 255 bytes", ["tally", longest], 0, REPORT)
    checks.ends("a name of 256 bytes", ["tally", longest + "a"], 3, err="flow_tally: file 1 cannot be opened\n")
    path = "./" * ((4_095 - len(one)) // 2) + one
    path = "." + "/" * (4_096 - len(path)) + path[2:]
    checks.is_same("the bytes of the path", len(path), 4_095)
    checks.ends("a path of 4,095 bytes", ["tally", path], 0, REPORT)
    checks.ends("a path of 4,096 bytes", ["tally", one, "./" + path[1:]], 3, err="flow_tally: file 2 cannot be opened\n")
    checks.ends("an empty name", ["tally", ""], 3, err="flow_tally: file 1 cannot be opened\n")
    odd = b"\xff\xfe.nf5"
    with contextlib.suppress(OSError):
        with open(os.path.join(checks.folder.encode(), odd), "wb") as out:
            out.write(ONE)
        for words in ([b"tally", odd], [b"tally", b"one.nf5", odd], [b"drive", odd]):
            checks.ends(f"a name that is no UTF-8, {words}", words, 2, err=USAGE)
    checks.ends("a file below a file", ["tally", one + "/x"], 3, err="flow_tally: file 1 cannot be opened\n")
    for name, status, out, err in (
        ("/dev/null", 0, b"flows 0 packets 0 octets 0 records 0 datagrams 0\n", ""),
        ("/dev/zero", 8, b"", "flow_tally: input too large at file 1\n"),
    ):
        checks.ends(f"a tally of {name}", ["tally", name], status, out, err)


def become_nobody() -> None:
    os.setgroups([])
    os.setgid(NOBODY)
    os.setuid(NOBODY)


def runs_as_nobody(program: str) -> bool:
    """Whether the program can be started as nobody where it is."""
    try:
        ran = subprocess.run([program], stdin=subprocess.DEVNULL, capture_output=True, timeout=120, preexec_fn=become_nobody, check=False)
    except (OSError, subprocess.SubprocessError):
        return False
    return ran.returncode == 2


def unreadable(checks: Checks) -> None:
    """A file that this user may not read. Root may read all, so it runs a copy of the program as nobody."""
    secret = checks.file("secret.nf5", ONE)
    os.chmod(os.path.join(checks.folder, secret), 0)
    program, before = checks.program, None
    if os.geteuid() == 0:
        program, before = os.path.join(checks.folder, "program"), become_nobody
        shutil.copyfile(checks.program, program)
        os.chmod(program, 0o755)
        os.chmod(checks.folder, 0o755)
        if not runs_as_nobody(program):
            print("an unreadable file is left out, since the program can't be run as nobody here")
            return
    own, checks.program = checks.program, program
    checks.ends("an unreadable file", ["tally", "one.nf5", secret], 3, err="flow_tally: file 2 cannot be opened\n", before=before)
    checks.ends("an unreadable script", ["drive", secret], 3, err="flow_tally: file 1 cannot be opened\n", before=before)
    checks.ends("a readable file of the same folder", ["tally", "one.nf5"], 0, REPORT, before=before)
    checks.program = own


def started(checks: Checks, words: list) -> subprocess.Popen:
    return subprocess.Popen([checks.program, *words], cwd=checks.folder, stdin=subprocess.DEVNULL, stdout=subprocess.PIPE, stderr=subprocess.PIPE)


def ends_so(checks: Checks, what: str, running: subprocess.Popen, status: int, out: bytes, err: str) -> None:
    told = running.communicate(timeout=120)
    checks.is_same(what, (running.returncode, *told), (status, out, err.encode()))


def pipes(checks: Checks) -> None:
    """Files that are pipes: read piece by piece, torn by a writer that is killed, and silent output until the last byte."""
    path = os.path.join(checks.folder, "pipe")
    os.mkfifo(path)
    for piece in (1, 7, 71):
        running = started(checks, ["tally", "one.nf5", "pipe"])
        with open(path, "wb", buffering=0) as pipe:
            for at in range(0, len(ONE), piece):
                pipe.write(ONE[at:at + piece])
                time.sleep(0.001)
            early, _, _ = select.select([running.stdout, running.stderr], [], [], 0.2)
            checks.is_same(f"streams before the end of a pipe in pieces of {piece}", early, [])
        ends_so(checks, f"a pipe in pieces of {piece}", running, 0, fold.report([ONE, ONE]), "")
    running = started(checks, ["tally", "pipe", "one.nf5"])
    writer = subprocess.Popen(["sh", "-c", "exec 3>pipe; cat part >&3; echo; exec sleep 600"], cwd=checks.folder, stdout=subprocess.PIPE)
    writer.stdout.readline()
    writer.kill()
    writer.wait()
    writer.stdout.close()
    ends_so(checks, "a pipe whose writer is killed", running, 6, b"", "flow_tally: file 1 offset 72: short records, 16 bytes left, 48 wanted\n")


def place_read(process: int, path: str):
    """How far a process has read in a file, by what Linux tells of its open files; None where the file isn't open."""
    with contextlib.suppress(OSError, ValueError):
        for stream in os.listdir(f"/proc/{process}/fd"):
            if os.readlink(f"/proc/{process}/fd/{stream}") == path:
                with open(f"/proc/{process}/fdinfo/{stream}", encoding="ascii") as told:
                    return int(told.readline().split()[1])
    return None


def cut_while_read(checks: Checks, rest: int) -> bool:
    """Cuts a file to a datagram's border and `rest` bytes while the program reads it; whether it could be met there."""
    path = os.path.join(os.path.realpath(checks.folder), "shrinking.nf5")
    with open(path, "wb") as out:
        for _ in range(UNREAD):
            out.write(FULL * 10)
    size = os.path.getsize(path)
    running, at = started(checks, ["tally", "shrinking.nf5"]), None
    while running.poll() is None and not at:
        at = place_read(running.pid, path)
    running.send_signal(signal.SIGSTOP)
    at = place_read(running.pid, path)
    if not at or at > size - 2 * len(FULL):
        running.send_signal(signal.SIGCONT)
        running.communicate(timeout=120)
        return False
    left = (at // len(FULL) + 1) * len(FULL) + rest
    os.truncate(path, left)
    running.send_signal(signal.SIGCONT)
    count = left // len(FULL)
    if rest:
        line = f"flow_tally: file 1 offset {count * len(FULL)}: short header, {rest} bytes left\n"
        ends_so(checks, "a file that is cut within a datagram while it is read", running, 6, b"", line)
    else:
        report = fold.report([FULL * count])
        ends_so(checks, "a file that is cut between datagrams while it is read", running, 0, report, "")
    return True


def shrinking(checks: Checks) -> None:
    if not os.path.isdir("/proc/self/fdinfo"):
        print("a file that shrinks is left out, since /proc tells no places of open files here")
        return
    for rest in (0, 17):
        met = any(cut_while_read(checks, rest) for _ in range(20))
        if not met:
            print("a file that shrinks is left out, since the program was never met while it read it")


def devices(checks: Checks) -> None:
    checks.file("one.nf5", ONE)
    checks.file("part", ONE + ONE[:40])
    full_and_closed(checks)
    closed_streams(checks)
    names(checks)
    unreadable(checks)
    pipes(checks)
    shrinking(checks)

#!/usr/bin/env python3
"""Compares a report with what nfdump keeps of the same export, flow by flow: packets, octets, both moments in milliseconds, and flags.

Then it compares the breaks in the engines' numbers, as the export stands and with datagrams left out, sent twice and exchanged. nfdump counts
the gaps that aren't 0 and calls them sequence failures; so does the fold that is written here apart from the program.

usage: nfdump.py PROGRAM EXPORT [PORT]

It wants nfdump 1.7 and isn't in the gate. The export's datagrams go to nfcapd over the loopback address, by PORT (9995). nfcapd keeps a moment of
milliseconds for each record; its records are joined here by the seven fields of a key. They are read as JSON: `%ter` of nfdump
1.7.1 prints 0 for the hundreds of milliseconds.
"""
import datetime
import json
import os
import pathlib
import socket
import subprocess
import sys
import tempfile
import time

sys.dont_write_bytecode = True
import fold

HEADER, RECORD = 24, 48
FLAGS = {"C": 128, "E": 64, "U": 32, "A": 16, "P": 8, "R": 4, "S": 2, "F": 1}


def datagrams(export: bytes) -> list[bytes]:
    """The export's datagrams, by the counts of their headers."""
    found, start = [], 0
    while start < len(export):
        end = start + HEADER + RECORD * int.from_bytes(export[start + 2:start + 4], "big")
        found.append(export[start:end])
        start = end
    return found


def collected(export: bytes, port: int, folder: str) -> str:
    """nfcapd's file of the datagrams."""
    collector = subprocess.Popen(["nfcapd", "-l", folder, "-p", str(port), "-b", "127.0.0.1", "-t", "3600"], stdout=subprocess.DEVNULL, stderr=subprocess.DEVNULL)
    time.sleep(1)
    sender = socket.socket(socket.AF_INET, socket.SOCK_DGRAM)
    for datagram in datagrams(export):
        sender.sendto(datagram, ("127.0.0.1", port))
        time.sleep(0.002)
    time.sleep(1)
    collector.terminate()
    collector.wait()
    return str(next(pathlib.Path(folder).glob("nfcapd.[0-9]*")))


def address(text: str) -> int:
    return int.from_bytes(socket.inet_aton(text), "big")


def moment(text: str) -> int:
    """Milliseconds since 1970 of a time of UTC."""
    time_told = datetime.datetime.fromisoformat(text).replace(tzinfo=datetime.timezone.utc)
    return round(time_told.timestamp() * 1000)


def key_of(record: dict) -> tuple:
    """The seven fields. Of ICMP nfdump tells type and code, which the export has as the target port, type * 256 + code."""
    target = record["dst_port"] if "dst_port" in record else record.get("icmp_type", 0) * 256 + record.get("icmp_code", 0)
    ends = address(record["src4_addr"]), address(record["dst4_addr"]), record.get("src_port", 0), target
    return (*ends, record["proto"], record.get("src_tos", 0), record.get("input_snmp", 0))


def value_of(record: dict) -> tuple:
    flags = sum(FLAGS.get(letter, 0) for letter in record.get("tcp_flags", ""))
    return (record["in_packets"], record["in_bytes"], moment(record["first"]), moment(record["last"]), flags)


def kept_by_nfdump(file: str) -> dict:
    """The flows of nfcapd's file."""
    flows: dict = {}
    environment = {**os.environ, "TZ": "UTC"}
    told = subprocess.run(["nfdump", "-r", file, "-N", "-o", "json"], check=True, capture_output=True, text=True, env=environment).stdout
    for record in json.loads(told):
        key, value = key_of(record), value_of(record)
        if key in flows:
            packets, octets, first, last, flags = flows[key]
            value = (packets + value[0], octets + value[1], min(first, value[2]), max(last, value[3]), flags | value[4])
        flows[key] = value
    return flows


def told_by_report(program: str, export: str) -> dict:
    """The flows of the report."""
    report = subprocess.run([program, "tally", export], check=True, capture_output=True, text=True).stdout
    flows = {}
    for line in report.splitlines():
        words = line.split()
        if "." in words[0]:
            flows[(address(words[0]), address(words[1]), *map(int, words[2:7]))] = tuple(map(int, words[7:12]))
    return flows


def failures(file: str) -> int:
    """The sequence failures that nfcapd found."""
    told = subprocess.run(["nfdump", "-r", file, "-I"], check=True, capture_output=True, text=True).stdout
    return int(next(line for line in told.splitlines() if line.startswith("Sequence failures:")).split()[2])


def breaks(export: bytes) -> int:
    """How many gaps of an engine aren't 0."""
    return sum(gap != 0 for _, _, gaps in fold.engines([fold.mark(sent) for sent in datagrams(export)]) for gap in gaps)


def with_breaks(export: bytes) -> list[tuple[str, bytes]]:
    """The export, and what a network makes of it."""
    sent, half = datagrams(export), len(datagrams(export)) // 2
    return [
        ("as it stands", export),
        ("three left out", b"".join(sent[:half] + sent[half + 3:])),
        ("one twice", b"".join(sent[:half + 1] + sent[half:])),
        ("two exchanged", b"".join(sent[:half] + [sent[half + 1], sent[half]] + sent[half + 2:])),
        ("the second half first", b"".join(sent[half:] + sent[:half])),
    ]


def unlike_breaks(export: bytes, port: int) -> int:
    """In how many cases nfdump finds another number of breaks."""
    unlike = 0
    for what, data in with_breaks(export):
        with tempfile.TemporaryDirectory() as folder:
            ours, theirs = breaks(data), failures(collected(data, port, folder))
        print(f"breaks, {what}: {ours}, of nfdump {theirs}")
        unlike += ours != theirs
    return unlike


def main() -> None:
    program, export = sys.argv[1:3]
    port = int(sys.argv[3]) if len(sys.argv) > 3 else 9995
    with tempfile.TemporaryDirectory() as folder:
        theirs = kept_by_nfdump(collected(pathlib.Path(export).read_bytes(), port, folder))
    ours = told_by_report(program, export)
    unlike = [key for key in ours.keys() | theirs.keys() if ours.get(key) != theirs.get(key)]
    print(f"flows {len(ours)}, of nfdump {len(theirs)}, unlike {len(unlike)}")
    for key in unlike[:5]:
        print(key, ours.get(key), theirs.get(key))
    unlike_numbers = unlike_breaks(pathlib.Path(export).read_bytes(), port)
    sys.exit(1 if unlike or unlike_numbers or not ours else 0)


if __name__ == "__main__":
    main()

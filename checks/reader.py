"""How a tally of any files ends, apart from the program: the status, what is written, and what is told."""
import struct

import fold


def fault_of(data: bytes):
    """The offset and the cause of the first fault of a file; None where it is well formed."""
    at = 0
    while at < len(data):
        left = len(data) - at
        if left < 24:
            return at, f"short header, {left} bytes left"
        version, count = struct.unpack_from(">HH", data, at)
        if version != 5:
            return at, f"version {version}"
        if not 1 <= count <= 30:
            return at, f"count {count}"
        if left - 24 < 48 * count:
            return at, f"short records, {left - 24} bytes left, {48 * count} wanted"
        at += 24 + 48 * count
    return None


def ending(files: list, flows: int) -> tuple:
    """The exit status and the bytes on both streams of a tally with at most so many flows."""
    for number, data in enumerate(files, 1):
        fault = fault_of(data)
        if fault is not None:
            return 6, b"", f"flow_tally: file {number} offset {fault[0]}: {fault[1]}\n".encode()
    report = fold.report(files)
    if fold.flow_count(report) > flows:
        return 7, b"", f"flow_tally: more than {flows} flows\n".encode()
    return 0, report, b""

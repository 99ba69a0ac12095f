"""NetFlow version 5 exports and their report, apart from the program."""
import random
import struct

RECORD = struct.Struct(">IIIHHIIIIHHBBBBHHBBH")
HEADER = struct.Struct(">HHIIIIBBH")


def record(src, dst, interface, packets, octets, first, last, sport, dport, prot, tos, flags=24) -> bytes:
    return RECORD.pack(src, dst, 7, interface, 9, packets, octets, first, last, sport, dport, 1, flags, prot, tos, 3, 4, 5, 6, 8)


def datagram(records: list, uptime=10_000, seconds=1_700_000_000, nanoseconds=0, sequence=0, engine=(0, 0)) -> bytes:
    return HEADER.pack(5, len(records), uptime, seconds, nanoseconds, sequence, *engine, 0) + b"".join(records)


def random_key(choose: random.Random) -> tuple:
    return (choose.getrandbits(32), choose.getrandbits(32), choose.randrange(8), choose.getrandbits(16), 443, choose.choice((6, 17)), choose.randrange(4))


def random_clock(choose: random.Random) -> tuple:
    """An uptime and a time since 1970, which may be less than the uptime, and whose fraction may be more than a second."""
    seconds = choose.choice((0, choose.randrange(5_000_000), 1_700_000_000 + choose.randrange(100_000), choose.getrandbits(32)))
    return choose.getrandbits(32), seconds, choose.choice((0, choose.randrange(10**9), choose.getrandbits(32)))


class Engines:
    """Engines that number their flows, and lose, repeat and begin anew now and then."""

    def __init__(self, choose: random.Random) -> None:
        self.choose = choose
        self.next = {(choose.randrange(256), choose.randrange(256)): choose.getrandbits(32) for _ in range(choose.randrange(1, 5))}

    def send(self, count: int) -> tuple:
        """The sequence number and the engine of a datagram with so many records."""
        engine = self.choose.choice(list(self.next))
        ahead = self.choose.choice((0, 0, 0, 0, 1, 30, 2**31 - 1, 2**31, self.choose.getrandbits(32), -1, -30))
        sequence = (self.next[engine] + ahead) % 2**32
        self.next[engine] = (sequence + count) % 2**32
        return sequence, engine


def export(choose: random.Random, keys: list, count: int) -> bytes:
    """Datagrams of 1 to 30 records, so many in all: each key in turn at first, and then some key."""
    engines = Engines(random.Random(choose.getrandbits(32)))
    records = []
    for i in range(count):
        src, dst, interface, sport, dport, prot, tos = keys[i] if i < len(keys) else choose.choice(keys)
        packets, octets = choose.randrange(1 << 32), choose.randrange(1 << 32)
        first, last = choose.randrange(1 << 32), choose.randrange(1 << 32)
        flags = choose.choice((0, 1 << choose.randrange(8), choose.getrandbits(8)))
        records.append(record(src, dst, interface, packets, octets, first, last, sport, dport, prot, tos, flags))
    parts = []
    while records:
        size = choose.randrange(1, 31)
        sent = records[:size]
        parts.append(datagram(sent, *random_clock(choose), *engines.send(len(sent))))
        records = records[size:]
    return b"".join(parts)


def dotted(address: int) -> str:
    return ".".join(str(byte) for byte in address.to_bytes(4, "big"))


def moment(uptime: int, seconds: int, nanoseconds: int, time: int) -> int:
    """A time of the uptime in milliseconds since 1970, by the clock of a header; 0 where it lies before."""
    return max(0, 1000 * seconds + nanoseconds // 1_000_000 - (uptime - time) % 2**32)


def merged(old: tuple, new: tuple) -> tuple:
    return (old[0] + new[0]) % 2**64, (old[1] + new[1]) % 2**64, min(old[2], new[2]), max(old[3], new[3]), old[4] | new[4]


def mark(data: bytes) -> tuple:
    """The engine, the sequence number and the count of a datagram."""
    _, count, _, _, _, sequence, kind, number, _ = HEADER.unpack_from(data)
    return (kind, number), sequence, count


def engines(marks: list) -> list:
    """The engines of datagrams with these marks, each with the sum of its counts and the gaps between its datagrams."""
    found = []
    for engine in sorted({sender for sender, _, _ in marks}):
        sent = [(sequence, count) for sender, sequence, count in marks if sender == engine]
        gaps = [(after - before - count) % 2**32 for (before, count), (after, _) in zip(sent, sent[1:])]
        found.append((engine, sum(count for _, count in sent), gaps))
    return found


def engine_lines(marks: list) -> list:
    lines = []
    for (kind, number), flows, gaps in engines(marks):
        lost, resets = sum(gap for gap in gaps if gap < 2**31), sum(gap >= 2**31 for gap in gaps)
        lines.append(f"engine {kind} {number} flows {flows} lost {lost} resets {resets}")
    return lines


def flow_count(text: bytes) -> int:
    """How many flow lines a report has."""
    return sum(line[:1].isdigit() for line in text.splitlines())


def report(files: list) -> bytes:
    """The report of files that are well formed."""
    flows, marks = {}, []
    for data in files:
        at = 0
        while at < len(data):
            _, count, *clock = HEADER.unpack_from(data, at)[:5]
            for i in range(count):
                src, dst, _, interface, _, packets, octets, first, last, sport, dport, _, flags, prot, tos, *_ = RECORD.unpack_from(data, at + 24 + 48 * i)
                key = (src, dst, sport, dport, prot, tos, interface)
                value = (packets, octets, moment(*clock, first), moment(*clock, last), flags)
                flows[key] = merged(flows[key], value) if key in flows else value
            marks.append(mark(data[at:at + 24]))
            at += 24 + 48 * count
    lines = [" ".join([dotted(key[0]), dotted(key[1]), *map(str, key[2:]), *map(str, flows[key])]) for key in sorted(flows)]
    packets, octets = (sum(value[i] for value in flows.values()) for i in (0, 1))
    lines += engine_lines(marks)
    records = sum(count for _, _, count in marks)
    lines.append(f"flows {len(flows)} packets {packets} octets {octets} records {records} datagrams {len(marks)}")
    return "".join(line + "\n" for line in lines).encode()

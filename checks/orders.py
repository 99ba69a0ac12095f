"""Whether some order of a script's calls explains what came of it, apart from the program.

An order keeps each caller's calls in turn, and the plain object gives each its reply in it. Full changes
nothing, and needs as many nodes as the order of the bucket's records says.
"""
import re

from scripts import KEY_WORDS, RECORD_WORDS, VALUE_WORDS, numbers, spelled

WORD = (1 << 64) - 1
REGISTERS = 16
CLAIMS = 4
MOST_STATES = 20_000
LAST_REGISTER = re.compile(r"register (\d+) ([\d,]+)")
LAST_PAIR = re.compile(r"record (\d+(?:,\d+)?) ([\d,]+)")
FULL = re.compile(r"full need (0|[1-9]\d*) free (0|[1-9]\d*)")


def bucket_of(key: tuple, buckets: int) -> int:
    turned = (key[1] << 32 | key[1] >> 32) & WORD
    return (((key[0] ^ turned) * 0x9E3779B97F4A7C15 & WORD) >> 32) % buckets


class Course:
    """A script that has come so far: the contents, and what each caller's changes cost in nodes."""

    def __init__(self, plan: tuple) -> None:
        self.plan = plan  # callers, share, buckets
        self.registers = ((0,) * RECORD_WORDS,) * REGISTERS
        self.buckets = {}  # a bucket's (key, value) pairs, the last inserted first
        self.costs = (0,) * plan[0]

    def copy(self) -> "Course":
        other = Course.__new__(Course)
        other.plan, other.registers, other.buckets, other.costs = self.plan, self.registers, self.buckets, self.costs
        return other

    def state(self) -> tuple:
        return self.registers, tuple(sorted(self.buckets.items())), self.costs

    def content(self, cell: tuple) -> str:
        """What a register or a key has now, as a reply tells it."""
        kind, name = cell
        if kind == "register":
            return spelled(self.registers[name])
        pairs = self.buckets.get(bucket_of(name, self.plan[2]), ())
        return next((spelled(value) for key, value in pairs if key == name), "absent")

    def with_register(self, register: int, record: tuple) -> "Course":
        after = self.copy()
        after.registers = self.registers[:register] + (record,) + self.registers[register + 1:]
        return after

    def with_bucket(self, bucket: int, pairs: tuple, caller: int, cost: int) -> "Course":
        after = self.copy()
        after.buckets = {**self.buckets, bucket: pairs}
        after.costs = self.costs[:caller] + (self.costs[caller] + cost,) + self.costs[caller + 1:]
        return after

    def call(self, caller: int, name: str, words: list) -> tuple:
        """The reply, and the course after it and the nodes needed where the call changes the contents."""
        if name in ("find", "insert", "replace", "remove"):
            return self.call_pair(caller, name, numbers(words[0], KEY_WORDS), [numbers(word, VALUE_WORDS) for word in words[1:]])
        register, records = int(words[0]), [numbers(word, RECORD_WORDS) for word in words[1:]]
        there = self.registers[register]
        if name in ("load", "hold"):
            return spelled(there), self, 0
        if name == "swap" and there != records[0]:
            return "no", self, 0
        reply = "yes" if name == "swap" else "done"
        return (reply, self, 0) if there == records[-1] else (reply, self.with_register(register, records[-1]), 1)

    def call_pair(self, caller: int, name: str, key: tuple, values: list) -> tuple:
        bucket = bucket_of(key, self.plan[2])
        pairs = self.buckets.get(bucket, ())
        place = next((i for i, pair in enumerate(pairs) if pair[0] == key), None)
        there = None if place is None else pairs[place][1]
        if name == "find":
            return ("absent" if there is None else spelled(there)), self, 0
        if name == "insert":
            if there is not None:
                return "present " + spelled(there), self, 0
            return "done", self.with_bucket(bucket, ((key, values[0]),) + pairs, caller, min(1, len(pairs))), min(2, 1 + len(pairs))
        if there is None:
            return "absent", self, 0
        front, rest = pairs[:place], pairs[place + 1:]
        if name == "remove":
            return "gone " + spelled(there), self.with_bucket(bucket, front + rest, caller, -min(1, len(pairs) - 1)), max(1, place)
        if there != values[0]:
            return "found " + spelled(there), self, 0
        if there == values[1]:
            return "yes", self, 0
        return "yes", self.with_bucket(bucket, front + ((key, values[1]),) + rest, caller, 0), place + 1

    def may_refuse(self, caller: int, reply: str, needed: int) -> bool:
        found = FULL.fullmatch(reply)
        if found is None:
            return False
        need, free = (int(number) for number in found.groups())
        stock = self.plan[1] - self.costs[caller]
        return need == needed and free < needed and stock - CLAIMS * self.plan[0] <= free <= stock


def lines_in(out: bytes):
    """The output's lines, each of which ends with one line feed; None where it is no such text."""
    if not out.endswith(b"\n") or any(byte != 10 and not 32 <= byte < 127 for byte in out):
        return None
    return out.decode("ascii").split("\n")[:-1]


def turns_of(script: bytes, replies: list, callers: int) -> list:
    """Each caller's calls with their replies, in turn; a hold has the record that is looked at under it.

    None where a hold or a release has another reply than done, or two looks under one hold differ.
    """
    turns = [[] for _ in range(callers)]
    holds = {}
    for line, reply in zip(script.decode().splitlines()[1:], replies):
        caller, name, *words = line.split(" ")
        own = turns[int(caller)]
        if name == "look":
            hold = holds[caller]
            if hold[2] not in (None, reply):
                return None
            hold[2] = reply
        elif name == "drop":
            if reply != "done":
                return None
        else:
            own.append([name, words, None if name == "hold" else reply])
            if name == "hold":
                if reply != "done":
                    return None
                holds[caller] = own[-1]
    return turns


def looked_at(name: str, words: list) -> tuple:
    """The register or the key of a call."""
    return ("key", numbers(words[0], 2)) if name in ("find", "insert", "replace", "remove") else ("register", int(words[0]))


def content_told(name: str, words: list, reply):
    """The content that a call found by its reply; None where the reply doesn't tell."""
    if reply is None or name == "store" or reply == "no" or reply.startswith("full"):
        return None
    if name in ("load", "hold"):
        return reply
    if reply == "absent" or name == "insert" and reply == "done":
        return "absent"
    return spelled(numbers(words[1], 5)) if reply == "yes" else reply.split(" ")[-1]


def tellers_in(turns: list) -> dict:
    """The calls that tell of a content, by what they looked at and that content: the caller, and the call's place."""
    tellers = {}
    for caller, own in enumerate(turns):
        for place, (name, words, reply) in enumerate(own):
            told = content_told(name, words, reply)
            if told is not None:
                tellers.setdefault((looked_at(name, words), told), []).append((caller, place))
    return tellers


def writers_in(turns: list) -> dict:
    """The calls that may change a register or a key: the caller, and the call's place."""
    writers = {}
    for caller, own in enumerate(turns):
        for place, (name, words, reply) in enumerate(own):
            if reply in ("done", "yes") or name == "remove":
                writers.setdefault(looked_at(name, words), []).append((caller, place))
    return writers


def last_contents(lines: list) -> dict:
    """The contents that the last lines of the output tell, by register and key."""
    found = {}
    for line in lines:
        register, pair = LAST_REGISTER.fullmatch(line), LAST_PAIR.fullmatch(line)
        if register is not None:
            found["register", int(register[1])] = register[2]
        if pair is not None:
            found["key", numbers(pair[1], KEY_WORDS)] = pair[2]
    return found


def step(course: Course, caller: int, turn: list):
    """The course after a caller's next call, or None where its reply is another here."""
    name, words, wanted = turn
    reply, after, needed = course.call(caller, name, words)
    if wanted is None:
        return course
    if wanted.startswith("full"):
        return course if after is not course and course.may_refuse(caller, wanted, needed) else None
    return after if reply == wanted else None


def read_on(course: Course, turns: list, places: list) -> None:
    """Takes every call that changes nothing here: none of them can come too early.

    A store is left, since its reply doesn't tell whether it is the one that changes the register elsewhere.
    """
    for caller, own in enumerate(turns):
        while places[caller] < len(own) and own[places[caller]][0] != "store" and step(course, caller, own[places[caller]]) is course:
            places[caller] += 1


def changes_from(course: Course, turns: list, places: list, told: tuple) -> list:
    """What each caller's next call leads to; those come last whose old content the fewest later calls tell of.

    A call is left out where nobody changes what it changed any more, and it isn't as the output's end tells.
    """
    tellers, writers, ends = told
    found = []
    for caller, own in enumerate(turns):
        if places[caller] == len(own):
            continue
        turn = own[places[caller]]
        after = step(course, caller, turn)
        if after is not None:
            later = list(places)
            later[caller] += 1
            cell = looked_at(turn[0], turn[1])
            last = "0" if cell[0] == "register" else "absent"
            is_settled = all(place < later[other] for other, place in writers.get(cell, ()))
            if is_settled and after.content(cell) != ends.get(cell, last):
                continue
            waiting = sum(place >= later[other] for other, place in tellers.get((cell, course.content(cell)), ()))
            found.append((0 if after is course else waiting, after, later))
    found.sort(key=lambda change: -change[0])
    return [(after, later) for _, after, later in found]


def ends_of(course: Course) -> list:
    """The last contents and the nodes."""
    callers, share, buckets = course.plan
    lines = [f"register {i} {spelled(words)}" for i, words in enumerate(course.registers) if any(words)]
    pairs = sorted(pair for chain in course.buckets.values() for pair in chain)
    lines += [f"record {spelled(key)} {spelled(value)}" for key, value in pairs]
    live = REGISTERS + buckets + sum(max(0, len(chain) - 1) for chain in course.buckets.values())
    whole = callers * share + REGISTERS + buckets
    return lines + [f"nodes {whole} free {whole - live} live {live}"]


def is_explained(script: bytes, out: bytes, share: int, buckets: int) -> bool:
    """Whether an order of the script's calls is found from which the output comes."""
    return explained(script, out, share, buckets) is True


def explained(script: bytes, out: bytes, share: int, buckets: int, most: int = MOST_STATES):
    """Whether the output is what comes of the script's calls in some order; None where the search gives up after so many states."""
    count = len(script.decode().splitlines()) - 1
    callers = int(script.decode().split("\n", 1)[0].split(" ")[1])
    lines = lines_in(out)
    if lines is None or len(lines) <= count:
        return False
    turns = turns_of(script, lines[:count], callers)
    if turns is None:
        return False
    told = tellers_in(turns), writers_in(turns), last_contents(lines[count:])
    open_states, seen = [(Course((callers, share, buckets)), [0] * callers)], set()
    while open_states and len(seen) < most:
        course, places = open_states.pop()
        read_on(course, turns, places)
        state = (tuple(places), course.state())
        if state in seen:
            continue
        seen.add(state)
        if all(place == len(own) for place, own in zip(places, turns)):
            if ends_of(course) == lines[count:]:
                return True
            continue
        open_states += changes_from(course, turns, places, told)
    return None if open_states else False

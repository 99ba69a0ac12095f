"""Scripts to try, and how their numbers are spelled, apart from the program."""
import random

RECORD_WORDS, KEY_WORDS, VALUE_WORDS = 7, 2, 5


def numbers(text: str, width: int) -> tuple:
    given = [int(number) for number in text.split(",")]
    return tuple(given + [0] * (width - len(given)))


def spelled(words: tuple) -> str:
    used = max((i + 1 for i, word in enumerate(words) if word), default=1)
    return ",".join(str(word) for word in words[:used])


def tuple_of(choose: random.Random, width: int, most: int) -> str:
    return ",".join(str(choose.randrange(most)) for _ in range(choose.randrange(1, width + 1)))


def random_script(seed: int, callers: int, lines: int) -> bytes:
    """Each caller holds and drops in turn; small numbers, so that calls meet."""
    choose, held, made = random.Random(seed), set(), [f"callers {callers}"]
    for _ in range(lines):
        caller, register = choose.randrange(callers), choose.randrange(16)
        key, value, other = (tuple_of(choose, width, 3) for width in (KEY_WORDS, VALUE_WORDS, VALUE_WORDS))
        new, old = tuple_of(choose, RECORD_WORDS, 3), choose.choice(("0", tuple_of(choose, 2, 3)))
        calls = [f"load {register}", f"store {register} {new}", f"swap {register} {old} {new}", f"find {key}", f"insert {key} {value}",
                 f"replace {key} {value} {other}", f"remove {key}"]
        calls += ["look", "drop"] if caller in held else [f"hold {register}"] * 2
        call = choose.choice(calls)
        if call == "drop":
            held.remove(caller)
        elif call.startswith("hold"):
            held.add(caller)
        made.append(f"{caller} {call}")
    return ("\n".join(made) + "\n").encode()


def many_swaps(callers: int, count: int) -> bytes:
    """Each caller swaps register 0 from i to i + 1, for i below count."""
    lines = [f"{caller} swap 0 {i} {i + 1}" for i in range(count) for caller in range(callers)]
    return (f"callers {callers}\n" + "\n".join(lines) + "\n").encode()


def ten_pairs() -> bytes:
    """Ten pairs whose keys and values take all their bits, put in by falling key."""
    most = 2**64 - 1
    lines = [f"{i % 64} insert {most - i},{i * 977} {most},{i},{most - 1},0,{most}" for i in range(10)]
    return ("callers 64\n" + "\n".join(lines) + "\n63 find 18446744073709551615\n0 store 15 0,0,0,0,0,0,18446744073709551615").encode()


def crowded_script(choose: random.Random, callers: int, count: int) -> bytes:
    """Each caller counts register 0 and the value of key 7 up, side by side with the others, and reads in between.

    All pairs are in one bucket. A caller's pair of its own comes, and goes again or stays.
    """
    lines = ["0 insert 7 0"]
    for caller in range(callers):
        own = 100 + caller
        calls = [f"insert {own} {caller}"]
        for i in range(count):
            calls += [f"swap 0 {i} {i + 1}", f"replace 7 {i} {i + 1}", choose.choice(["load 0", "find 7", f"find {own}"])]
        calls += choose.choice([[f"remove {own}"], [f"replace {own} {caller} {caller},1"], []])
        lines += [f"{caller} {call}" for call in calls]
    return (f"callers {callers}\n" + "\n".join(lines) + "\n").encode()

"""Outputs of scripts that no order explains: the search for one must refuse each.

Each wrong output is the right one with one place changed, so a search that misses a test takes it.
"""
import orders
from running import Checks

SCRIPT = b"""callers 2
0 insert 9,4 1,2
0 find 9,4
0 replace 9,4 1,2 5
0 find 9,4
0 insert 1 6
1 store 3 7,0,1
1 load 3
1 hold 3
1 store 3 8
1 look
1 drop
1 swap 3 8 9
1 swap 3 8 10
1 load 3
"""
RIGHT = b"""done
1,2
yes
5
done
done
7,0,1
done
done
7,0,1
done
yes
no
9
register 3 9
record 1 6
record 9,4 5
nodes 145 free 127 live 18
"""
PLACES = RIGHT.splitlines(keepends=True)
LATE_STORE = b"callers 2\n0 store 9 0\n0 find 1\n1 store 9 1\n1 insert 1 2\n"  # caller 0 stores after caller 1 did
LATE_STORED = b"done\n2\ndone\ndone\nrecord 1 2\nnodes 145 free 128 live 17\n"
FEW_NODES = b"callers 1\n0 insert 1 10\n0 insert 2 20\n0 find 2\n"
REFUSED = b"done\nfull need 2 free 1\nabsent\nrecord 1 10\nnodes 18 free 1 live 17\n"


def with_line(at: int, line: bytes) -> bytes:
    return b"".join([*PLACES[:at], line, *PLACES[at + 1:]])


def exchanged(one: int, other: int) -> bytes:
    lines = list(PLACES)
    lines[one], lines[other] = lines[other], lines[one]
    return b"".join(lines)


WRONG = {
    "a value that was never there": with_line(1, b"1,3\n"),
    "a no where the values agree": with_line(2, b"found 1,2\n"),
    "two finds of one caller exchanged": exchanged(1, 3),
    "two loads of one caller exchanged": exchanged(6, 13),
    "a hold's reply": with_line(7, b"yes\n"),
    "a look at what was stored since": with_line(9, b"8\n"),
    "a release's reply": with_line(10, b"no\n"),
    "two swaps of one record that both won": with_line(12, b"yes\n"),
    "a reply missing": with_line(4, b""),
    "a Full where nodes are free": with_line(4, b"full need 2 free 1\n"),
    "a register missing": with_line(14, b""),
    "a register's earlier record": with_line(14, b"register 3 8\n"),
    "a pair missing": with_line(16, b""),
    "a pair twice": with_line(16, 2 * b"record 9,4 5\n"),
    "pairs in another order": exchanged(15, 16),
    "free nodes off by one": with_line(17, b"nodes 145 free 126 live 18\n"),
    "a node in a cell that is free": with_line(17, b"nodes 145 free 126 live 19\n"),
    "nodes off by one": with_line(17, b"nodes 146 free 128 live 18\n"),
    "no last line feed": RIGHT[:-1],
    "a line more": RIGHT + b"\n",
    "another line end": RIGHT.replace(b"\n", b"\r\n"),
    "a line end of Unicode": with_line(6, "7,0,1\u2028".encode()),
    "a form feed for a line feed": with_line(6, b"7,0,1\f"),
    "trailing zeros": with_line(6, b"7,0,1,0\n"),
    "no output": b"",
}
WRONG_REFUSALS = {
    "a need off by one": REFUSED.replace(b"need 2", b"need 3"),
    "free nodes that would do": REFUSED.replace(b"need 2 free 1", b"need 2 free 2"),
    "free nodes below the stock": REFUSED.replace(b"need 2 free 1", b"need 2 free -1"),
    "a number spelled in two ways": REFUSED.replace(b"free 1\na", b"free 01\na"),
    "a pair that was refused": REFUSED.replace(b"absent", b"20").replace(b"nodes", b"record 2 20\nnodes"),
    "an insert without nodes": REFUSED.replace(b"full need 2 free 1", b"done"),
}


def wrong_orders(checks: Checks) -> None:
    checks.is_same("an order of two callers", orders.is_explained(SCRIPT, RIGHT, 64, 1), True)
    checks.is_same("an order with a Full", orders.is_explained(FEW_NODES, REFUSED, 1, 1), True)
    checks.is_same("an order with a late store", orders.is_explained(LATE_STORE, LATE_STORED, 64, 1), True)
    for what, out in WRONG.items():
        checks.is_same(f"no order explains {what}", orders.is_explained(SCRIPT, out, 64, 1), False)
    for what, out in WRONG_REFUSALS.items():
        checks.is_same(f"no order explains {what}", orders.is_explained(FEW_NODES, out, 1, 1), False)

"""Irrevocable transactions: what each call reads and leaves, the memory after each of them, and in how many events."""

from copies import FIRST, PLACES, SIZE
from itertools import product
from lists import GOES, KEPT, REVOCABLE, SIZES
from table import Table

BOTH = f"{REVOCABLE}+{GOES}"  # with which no block begins


def look(table):
    for at in (0, 32, 64):
        table.read("_ITM_RM256", at)


def new_bytes(place, size):
    """Bytes that no place has at first, and others at each place."""
    return bytes((3 * place + at) % 64 + 190 for at in range(size))


def accesses():
    for kind, size in SIZES.items():
        table = Table(FIRST)
        table.begin(GOES)
        for place in range(98):
            table.read(f"_ITM_RaW{kind}", place)
            table.write(f"_ITM_W{kind}", place, new_bytes(place, size))
            look(table)
        table.commit()
        yield from table.exactly(f"irrevocable accesses of {kind}")


def copies():
    """Copies between some places, one after the other."""
    for size in range(98):
        table = Table(FIRST)
        table.begin(GOES)
        for start, to, kind in product(PLACES, PLACES, ("cpy", "move")):
            table.copy(f"_ITM_mem{kind}RtWt", to, start, size)
            look(table)
        table.commit()
        yield from table.exactly(f"irrevocable copies of {size} bytes")


def arena_copies():
    """What is copied into the arena is seen as the next block begins."""
    table = Table(FIRST, SIZE)
    table.save(8, FIRST[:8])
    table.save(88, FIRST[40:48])
    for size in range(98):
        if table.is_full(10 * len(PLACES) ** 2):
            yield from table.exactly(f"irrevocable copies by the arena up to {size} bytes")
            table = Table(FIRST, SIZE)
        for start, to in product(PLACES, PLACES):
            table.begin(GOES)
            table.copy("_ITM_memcpyRtWn", to, start, size)
            table.copy("_ITM_memmoveRnWt", to, start, size)
            look(table)
            table.write("_ITM_WM256", start % 64, new_bytes(to + size, 32))
            table.commit()
    yield from table.exactly("irrevocable copies by the arena")


def fills():
    table = Table(FIRST)
    table.begin(GOES)
    for size in range(98):
        if table.is_full(5 * 98):
            table.commit()
            yield from table.exactly(f"irrevocable fills of up to {size} bytes")
            table = Table(FIRST)
            table.begin(GOES)
        for to in range(98):
            table.fill("_ITM_memsetWaR", to, 7 * to + 300 + size, size)
            look(table)
    table.commit()
    yield from table.exactly("irrevocable fills")


def without_events():
    """Calls of which none takes an event."""
    table = Table(FIRST, SIZE)
    table.begin(GOES)
    table.in_transaction()
    table.on_commit(2, 5)
    table.on_undo(3, 6)
    table.mode()
    table.cancel()
    table.begin(GOES)
    table.log_bytes(1, 2)
    table.save(1, b"\1\2")
    table.save(95, b"\1\2")
    table.begin(KEPT)
    table.begin(REVOCABLE)
    table.begin(GOES)
    table.begin(BOTH)
    table.mode()
    table.cancel()
    table.cancel(outer=True)
    table.commit()
    table.mode()
    table.cancel()
    table.on_commit(4, 7)
    table.commit()
    table.cancel(outer=True)
    table.log("_ITM_LU4", 92)
    table.log("_ITM_LU4", 93)
    table.log_bytes(96, 0)
    table.log_bytes(97, 0)
    table.load(0, 4)
    table.load(93, 4)
    table.commit()
    table.in_transaction()
    table.commit()
    yield from table.exactly("irrevocable calls that take no event")


def depth():
    """Sixteen blocks are open at most; and a block that keeps the transaction revocable is told of before that."""
    table = Table(FIRST)
    table.begin(GOES)
    for _ in range(17):
        table.begin(f"{KEPT}+{REVOCABLE}")
    for _ in range(16):
        table.commit()
    table.begin(REVOCABLE)
    for _ in range(17):
        table.begin()
        table.begin(GOES)
    for _ in range(16):
        table.commit()
    table.begin(GOES)
    table.commit()
    yield from table.exactly("irrevocable blocks as deep as may be")


def written_before():
    """What a transaction wrote before it becomes irrevocable is read and written over then."""
    table = Table(FIRST)
    for place, enters in product([0, 3, 8, 13, 79, 80], [Table.mode, lambda t: t.begin(GOES)]):
        table.begin()
        table.write("_ITM_WM128", place, new_bytes(place + 1, 16))
        table.write("_ITM_WU2", place, new_bytes(place + 40, 2))
        look(table)
        enters(table)
        look(table)
        table.copy("_ITM_memmoveRtWt", place, place + 3, 13)
        look(table)
        while table.lists.blocks:
            table.commit()
    yield from table.exactly("written before")


STEPS = [
    *(lambda table, props=props: table.begin(props) for props in ("-", GOES, REVOCABLE, BOTH, KEPT)),
    Table.mode,
    Table.cancel,
    lambda table: table.cancel(outer=True),
    lambda table: table.commit() if table.lists.blocks else None,
]


def modes():
    """Every run of three calls that begin and end blocks and make irrevocable, in each kind of outermost block."""
    table, number = Table(bytes(range(16)), 4), 0
    for props in ("-", GOES, REVOCABLE, KEPT, f"{KEPT}+{REVOCABLE}", f"{KEPT}+{GOES}"):
        for steps in product(STEPS, repeat=3):
            if table.is_full(100):
                yield from table.exactly(f"modes up to {number}")
                table = Table(bytes(range(16)), 4)
            table.begin(props)
            for step in steps:
                number += 1
                if table.lists.blocks:
                    table.write("_ITM_WU1", number % 16, bytes([number % 251]))
                    table.log("_ITM_LU1", number % 3)
                    table.on_undo(number, 1)
                    table.on_commit(number, 2)
                table.save(number % 3, bytes([number % 241]))
                step(table)
                if table.lists.blocks:
                    table.in_transaction()
                    table.read("_ITM_RM128", 0)
            while table.lists.blocks:
                table.commit()
    table.begin(GOES)
    table.commit()
    yield from table.exactly("modes")


def cases():
    for some in (accesses, copies, arena_copies, fills, without_events, depth, written_before, modes):
        yield from some()

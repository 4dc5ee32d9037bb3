"""Every type with every hint at every place of five words, before and after what is written goes to the memory."""

from itertools import product
from lists import READ_HINTS, SIZES, WRITE_HINTS
from table import Table

SIZE = 40
READS = [f"_ITM_{hint}{kind}" for hint in READ_HINTS for kind in SIZES]


def new_bytes(number, size):
    """Others for each number."""
    return bytes((37 * number + 11 * at + 1) % 256 for at in range(size))


def one(table, number, hint, kind, place):
    """A block writes there and reads with each hint, and the next one reads there again."""
    table.begin()
    table.write(f"_ITM_{hint}{kind}", place, new_bytes(number, SIZES[kind]))
    for name in READS:
        table.read(name, place)
    table.read("_ITM_RM256", 0)
    table.read("_ITM_RU8", 32)
    table.commit()
    table.begin()
    for name in READS if hint == "W" else READS[:1]:
        table.read(name, place)
    table.read("_ITM_RM256", 0)
    table.read("_ITM_RU8", 32)
    table.commit()


def cases():
    first = Table(bytes(range(SIZE)))
    for number, (hint, kind) in enumerate(product(WRITE_HINTS, SIZES)):
        one(first, number, hint, kind, 3)
        one(first, number, hint, kind, SIZE)
    yield first.case("accesses at 3 and at the end")
    table, number = Table(bytes(range(SIZE))), 0
    for hint, kind, place in product(WRITE_HINTS, SIZES, range(SIZE + 1)):
        if table.is_full(200):
            yield table.case(f"accesses up to {hint}{kind} at {place}")
            table = Table(bytes(range(SIZE)))
        one(table, number, hint, kind, place)
        number += 1
    yield table.case("accesses")
    far = Table(bytes(range(SIZE)))
    far.begin()
    for kind, size in SIZES.items():
        for place in [SIZE - size, SIZE - size + 1, SIZE, SIZE + 1, 2**64 - size, 2**64 - 1]:
            far.read(f"_ITM_R{kind}", place)
            far.write(f"_ITM_W{kind}", place, new_bytes(place, size))
    far.commit()
    yield far.case("accesses far past the end")

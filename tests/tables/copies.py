"""Copies and fills of every size between any two places, and what is refused of them.

The texts of the many copies within the memory are put together by hand, from the digits of the memory as it was: a
memory of two halves, of which the second one is copied within, and the first one has what it is set back to.
"""

from itertools import product
from table import BEGIN, CANCEL, COMMIT, MOST, Case, Table

SIZE = 96
PLACES = [0, 1, 3, 7, 8, 9, 31, 32, 33, 64, 95, 96]  # where copies from or to the arena begin
SIDES = ["n", "t", "taR", "taW"]
FIRST = bytes(place % 200 + 10 for place in range(SIZE))
MEMORY = FIRST + FIRST

BLOCK = f"{BEGIN} r0 -\n"
READS = "".join(f"_ITM_RM256 r2 {SIZE + at}\n" for at in (0, 32, 64))
SET_BACK = f"_ITM_memcpyRtWt {SIZE} 0 {SIZE}"
EACH = 10  # instructions of the longest case
HALF = FIRST.hex()


def digits(start, end):
    return HALF[2 * start : 2 * end]


def reads(half):
    """The lines of the reads of these digits."""
    return (
        f"call _ITM_RM256 {SIZE} = {half[:64]}\n"
        f"call _ITM_RM256 {SIZE + 32} = {half[64:128]}\n"
        f"call _ITM_RM256 {SIZE + 64} = {half[128:]}\n"
    )


class Within:
    """One case after the other, each of which leaves the memory as it was."""

    def __init__(self, name):
        self.name, self.number = name, 0
        self.clear()

    def clear(self):
        self.code, self.lines, self.instructions, self.commits = [], [], 0, 0

    def add(self, code, instructions):
        self.code.append(code)
        self.instructions += instructions

    def attempt(self, outcome, lines):
        self.lines.append(f"attempt 0 1 {self.commits} {outcome} -\narena -\n{lines}end\n")
        if outcome == "committed":
            self.commits += 1

    def cancelled(self, call, half):
        """The call, whose block is cancelled once it is seen that the memory has these digits."""
        self.add(f"{BLOCK}{call}\n{READS}{CANCEL}\n{COMMIT}\n", 7)
        self.attempt("cancelled", f"call {call} = ok\n{reads(half)}call {CANCEL} = code 24\n")

    def committed(self, instruction, call, half, changes):
        """The call, whose block commits; the next one sees that the memory has these digits, and sets it back."""
        self.add(f"{BLOCK}{instruction}\n{COMMIT}\n{BLOCK}{READS}{SET_BACK}\n{COMMIT}\n", EACH)
        self.attempt("committed" if changes else "readonly", f"call {call} = ok\ncall {COMMIT} = ok\n")
        self.attempt("committed", f"{reads(half)}call {SET_BACK} = ok\ncall {COMMIT} = ok\n")

    def refused(self, calls, number):
        """Calls of which each is refused with this number, in a block that sees that the memory is as it was."""
        if not calls:
            return
        self.add("\n".join([BLOCK + calls[0], *calls[1:], READS + COMMIT, ""]), len(calls) + 5)
        lines = "".join(f"call {call} = refused {number}\n" for call in calls)
        self.attempt("readonly", f"{lines}{reads(HALF)}call {COMMIT} = ok\n")

    def is_full(self, more):
        return self.instructions + more > MOST

    def take(self):
        """The script of the cases so far."""
        script = [f".memory {2 * SIZE}\n.init 0 {MEMORY.hex()}\n.thread\n", *self.code]
        history = [f"itm-history 1\nmemory {MEMORY.hex()}\n", *self.lines]
        history.append(f"final {2 * self.commits} {MEMORY.hex()}\n")
        self.number += 1
        self.clear()
        return Case(f"{self.name}, {self.number}", "".join(script), "".join(history))


def copies():
    """Copies within the memory between all places, and the first past its end."""
    cases = Within("copies within the memory")
    for size in range(101):
        places = range(max(98 - size, 1))
        for start in places:
            if cases.is_full(2 * EACH * len(places)):
                yield cases.take()
            beyond, double = [], []
            for to in places:
                copy, move = (f"_ITM_mem{kind}RtWt {SIZE + to} {SIZE + start} {size}" for kind in ("cpy", "move"))
                if max(to, start) + size > SIZE:
                    beyond += [copy, move]
                    continue
                half = digits(0, to) + digits(start, start + size) + digits(to + size, SIZE)
                if abs(to - start) < size:
                    double.append(copy)
                else:
                    cases.cancelled(copy, half)
                cases.committed(move, move, half, size > 0)
            cases.refused(beyond, 2)
            cases.refused(double, 4)
    yield cases.take()


def fills():
    cases = Within("fills")
    for size in range(101):
        if cases.is_full(98 * EACH):
            yield cases.take()
        beyond = []
        for to in range(98):
            instruction, call = (f"_ITM_memsetW {SIZE + to} {byte} {size}" for byte in (0x3F5, 0xF5))
            if to + size > SIZE:
                beyond.append(call)
            else:
                cases.committed(instruction, call, digits(0, to) + "f5" * size + digits(to + size, SIZE), size > 0)
        cases.refused(beyond, 2)
    yield cases.take()


def look(table):
    """The second half of the memory is read."""
    for at in (0, 32, 64):
        table.read("_ITM_RM256", SIZE + at)


def arena_copies():
    """Copies out of the arena, whose blocks are cancelled; and into it, which the next attempt begins with."""
    table = Table(MEMORY, SIZE)
    for size in range(101):
        if table.is_full(20 * len(PLACES) ** 2):
            yield table.case(f"copies by the arena up to {size}")
            table = Table(MEMORY, SIZE)
        kind = "memcpy" if size % 2 else "memmove"
        for start in PLACES:
            for to in PLACES:
                table.begin()
                table.copy("_ITM_memcpyRtWn", 0, 0, SIZE)
                table.copy(f"_ITM_{kind}RnWt", SIZE + to, start, size)
                look(table)
                table.cancel()
                table.begin()
                table.copy(f"_ITM_{kind}RtWn", to, SIZE + start, size)
                table.commit()
    table.begin()
    table.commit()
    yield table.case("copies by the arena")


def refused():
    """What is written is looked at before what is read, and that before what both have in common."""
    table = Table(MEMORY, 100)
    table.begin()
    far = [0, SIZE, SIZE + 1, 2 * SIZE, 2 * SIZE + 1, 2**64 - 2, 2**64 - 1]
    for size in [0, 1, SIZE, SIZE + 1, 2**64 - 1]:
        for to in far:
            for start in far:
                for name in ["cpyRtWt", "moveRtWt", "cpyRtaRWtaW", "moveRtaWWtaR", "cpyRnWt", "moveRnWtaR"]:
                    table.copy(f"_ITM_mem{name}", to, start, size)
    own = [0, 94, 95, 100, 101, 2**64 - 1]
    for size in [0, 5, 6, 2**64 - 1]:
        for place in [0, 2 * SIZE - 5, 2 * SIZE - 6, 2 * SIZE, 2 * SIZE + 1, 2**64 - 1]:
            for mine in own:
                table.copy("_ITM_memcpyRnWtaW", place, mine, size)
                table.copy("_ITM_memcpyRtaRWn", mine, place, size)
        for to in [0, 2 * SIZE, 2 * SIZE + 1, 2**64 - 1]:
            table.fill("_ITM_memsetWaW", to, 7, size)
    look(table)
    table.commit()
    table.begin()
    table.commit()
    yield table.case("copies that are refused")


def names():
    """Each copy and each fill by its name, over what the block has written."""
    table = Table(MEMORY, SIZE)
    for kind in ("cpy", "move"):
        for source, target in product(SIDES, SIDES):
            if (source, target) == ("n", "n"):
                continue
            table.begin()
            table.copy(f"_ITM_mem{kind}R{source}W{target}", 5, 40, 37)
            table.fill("_ITM_memsetW", SIZE, 1, 3)
            table.fill("_ITM_memsetWaR", SIZE + 1, 2, 3)
            table.fill("_ITM_memsetWaW", SIZE + 2, 3, 3)
            table.copy(f"_ITM_mem{kind}R{source}W{target}", 37, 4, 35)
            look(table)
            table.read("_ITM_RM256", 5)
            table.load(40, 8)
            table.commit()
    yield table.case("each copy by its name")


def fills_and_cancels():
    """Fills in a block within one, which is cancelled: the low 8 bits of the number count."""
    table = Table(FIRST)
    table.begin()
    for size in range(SIZE + 1):
        for to in (0, SIZE - size, (SIZE - size) // 2, SIZE + 1 - size):
            for byte in (7, 0x107, 0xFF00, 2**64 - 1):
                table.begin()
                table.fill("_ITM_memsetWaR", to, byte, size)
                for at in (0, 32, 64):
                    table.read("_ITM_RM256", at)
                table.cancel()
    table.commit()
    yield table.case("fills that are cancelled")


def largest():
    """On the largest memory nearly all of it is moved by one place, and is set to one byte, and goes back."""
    table = Table(bytes(65536))
    table.begin()
    table.write("_ITM_WU1", 65535, b"\x09")
    table.begin()
    table.copy("_ITM_memmoveRtWt", 0, 1, 65535)
    table.read("_ITM_RU2", 65533)
    table.begin()
    table.fill("_ITM_memsetW", 0, 7, 65536)
    table.read("_ITM_RM256", 32752)
    table.cancel()
    table.read("_ITM_RU2", 65534)
    table.commit()
    table.cancel()
    table.begin()
    table.fill("_ITM_memsetW", 0, 7, 65536)
    table.copy("_ITM_memmoveRtWt", 1, 0, 65535)
    table.commit()
    yield table.case("the largest copies")


def cases():
    for some in (copies, fills, arena_copies, refused, names, fills_and_cancels, largest):
        yield from some()

"""Blocks in blocks: what is written, logged, saved and registered in them, and each way in which they end."""

from itertools import product
from lists import KEPT, SIZES
from table import COMMIT, Table

WRITERS = 31  # threads of a script, of which each makes one run
MEMORY, ARENA = bytes(range(1, 41)), 6

# Where the block is entered again, it does nothing.
OPENER = ["ltu r5 r4 r0", "ifnz r5", "else"]
CLOSER = ["endif"]

# The other thread adds one to the first word, in four events a block.
OTHER = """.thread
set r1 1
.rept {}
_ITM_beginTransaction r0 -
add r2 r2 r1
_ITM_WU8 0 r2
_ITM_commitTransaction
.endr"""


class Conflicts(Table):
    """A table whose thread loses attempts to another one, which changes the first word."""

    def __init__(self, memory, arena):
        super().__init__(memory, arena)
        self.code.append("set r4 5")
        self.opener, self.closer = OPENER, CLOSER
        self.others = 0

    def is_full(self, more):
        return super().is_full(more + 4 * self.others)

    def loses(self, code, events):
        """The other thread commits, so that the next call ends the attempt, in so many events."""
        self.head.append(f".schedule 0x{self.events} 1x4")
        self.others += 1
        word = self.others.to_bytes(8, "little")
        closes = f"call {COMMIT} = ok"
        write = f"call _ITM_WU8 0 {word.hex()} = ok"
        self.tell(f"1 1 {self.commits} committed -", bytes(self.size), [write, closes])
        self.commits += 1
        self.code += code
        self.lost("conflict")
        self.lists.memory[:8] = word
        self.tell(f"0 2 {self.commits} readonly -", self.lists.arena, [closes])
        self.events = events + 1

    def case(self, name):
        self.head.append(".schedule 0! 1!")
        self.more = OTHER.format(self.others).split("\n") if self.others else [".thread"]
        return super().case(name)


# ## Ends


def close_inner(table):
    for _ in range(len(table.lists.blocks) - 1):
        table.commit()


def commit(table):
    while table.lists.blocks:
        table.commit()


def cancel(table):
    table.cancel(outer=True)


def conflict_at_read(table):
    """The load of a word that no block reads, and the clock, which has changed; then a round: the clock and the first
    word, which has."""
    if table.lists.blocks:
        table.loses(["_ITM_RU8 r2 32"], 4)


def conflict_at_commit(table):
    """The exchange, which finds another clock; then a round: the clock and the first word, which has changed."""
    if table.lists.blocks:
        close_inner(table)
        table.loses([], 3)


ENDS = {
    "that commit": (Table, commit),
    "that are cancelled": (Table, cancel),
    "with a conflict at a read": (Conflicts, conflict_at_read),
    "with a conflict at a commit": (Conflicts, conflict_at_commit),
}

# ## Runs


def enter(table, _number=0):
    """A block begins; an outermost one reads the first word and writes the second."""
    is_outermost = not table.lists.blocks
    table.begin()
    if is_outermost:
        table.read("_ITM_RU8", 0)
        table.write("_ITM_WU8", 8, b"\x07" + bytes(7))


def leave(table, _number=0):
    if table.lists.blocks:
        table.commit()


def cancel_one(table, _number=0):
    table.cancel()


def cancel_all(table, _number=0):
    table.cancel(outer=True)


CHOICES = [
    enter,
    lambda table, number: table.on_commit(number, 100 + number),
    lambda table, number: table.on_undo(number, 200 + number),
    leave,
    cancel_one,
    cancel_all,
]


def work(table, number):
    """Something is written, mostly logged, saved, and registered."""
    if table.lists.blocks:
        if number % 3:
            table.write("_ITM_WU1", 8 + number * 5 % 8, bytes([number * 29 % 256]))
        else:
            table.write("_ITM_WU8", 24, (number * 0x0101010101).to_bytes(8, "little"))
        if number % 5:
            table.log("_ITM_LU1", number // 2 % ARENA)
    table.save(number // 2 % ARENA, bytes([number * 31 % 256]))
    table.on_commit(number, 7)
    table.on_undo(number, 8)


def runs_of_calls(end):
    """Every run of five calls, with this end."""
    kind, ends = ENDS[end]
    table = kind(MEMORY, ARENA)
    for number, run in enumerate(product(CHOICES, repeat=5)):
        if table.is_full(80):
            yield table.case(f"runs of calls {end}, up to {number}")
            table = kind(MEMORY, ARENA)
        enter(table)
        for at, choice in enumerate(run):
            choice(table, at)
        ends(table)
    yield table.case(f"runs of calls {end}")


def runs_of_blocks(end):
    """Every run of five begins, commits and cancels with work before each, and with this end."""
    kind, ends = ENDS[end]
    table = kind(MEMORY, ARENA)
    for number, run in enumerate(product([enter, leave, cancel_one, cancel_all], repeat=5)):
        if table.is_full(150):
            yield table.case(f"runs of blocks {end}, up to {number}")
            table = kind(MEMORY, ARENA)
        enter(table)
        for at, choice in enumerate(run, 5 * number):
            work(table, at)
            choice(table)
        if table.lists.blocks:
            table.read("_ITM_RM256", 0)
        ends(table)
    yield table.case(f"runs of blocks {end}")


def comes_to_its_end(run):
    """Whether a run of these calls commits no outermost block, and leaves one open."""
    depth = 1
    for choice in run:
        if choice is leave and depth == 1:
            return False
        depth += {enter: 1, leave: -1, cancel_one: -1, cancel_all: -depth}.get(choice, 0)
        depth = max(depth, 0)
    return depth > 0


def runs_that_are_full():
    """Such runs of five calls, which find at the outermost commit that as many blocks as may be have committed."""
    runs = [run for run in product(CHOICES, repeat=5) if comes_to_its_end(run)]
    for first in range(0, len(runs), WRITERS):
        table = Table(MEMORY, ARENA)
        table.head.append(".commits 1")
        enter(table)
        commit(table)
        for run in runs[first : first + WRITERS]:
            table.next_thread()
            enter(table)
            for at, choice in enumerate(run):
                choice(table, at)
            close_inner(table)
            table.lost("full")
            table.gave_up.append(table.thread)
        yield table.case(f"runs that are full, from {first}")


# ## Deep nests

# Of sixteen blocks, from the innermost out, those with a bit are cancelled.
ORDERS = [
    0x0000, 0xFFFF, 0x5555, 0xAAAA, 0x00FF, 0xFF00, 0x0001, 0x8000,
    0x7FFF, 0xFFFE, 0x1248, 0x8421, 0xC3A5, 0x3C5A, 0x0FF0, 0xF00F,
]


def compare(table):
    if table.lists.blocks:
        table.read("_ITM_RM256", 0)
        table.load(0, 4)
        table.load(2, 4)


def deep():
    """Sixteen blocks one in the other, in each order, with work in each before and after those within it."""
    table = Table(MEMORY, ARENA)
    for order, outer in product(ORDERS, (False, True)):
        number = order
        for _ in range(16):
            table.begin()
            for _ in range(5):
                work(table, number)
                number += 7
            compare(table)
        table.begin()
        for block in range(16):
            if order >> block & 1:
                table.cancel(outer and block > 7)
            elif table.lists.blocks:
                table.commit()
            compare(table)
            for _ in range(3):
                work(table, number)
                number += 7
            compare(table)
    yield table.case("deep nests")


def sixteen(table):
    """Each block has written its number over byte 0 and over a byte of its own, and logged and saved the same."""
    for level in range(1, 17):
        table.begin()
        for place in (0, level):
            table.write("_ITM_WU1", place, bytes([level]))
            table.log("_ITM_LU1", place)
            table.save(place, bytes([level]))


def sixteen_blocks():
    table = Table(bytes(32), 32)
    sixteen(table)
    while table.lists.blocks:
        table.read("_ITM_RM256", 0)
        table.load(0, 8)
        table.load(8, 8)
        table.cancel()
    sixteen(table)
    while table.lists.blocks:
        table.commit()
        table.read("_ITM_RM256", 0)
        table.cancel()
    sixteen(table)
    for _ in range(8):
        table.commit()
    table.read("_ITM_RM256", 0)
    table.cancel(outer=True)
    table.cancel(outer=True)
    sixteen(table)
    table.begin()
    table.in_transaction()
    for _ in range(16):
        table.commit()
    yield table.case("sixteen blocks")


def kept_blocks():
    """A block that is not to be cancelled goes on, and what is in it can be cancelled."""
    table = Table(MEMORY, ARENA)
    for outer in ("-", KEPT):
        for inner in ("-", KEPT):
            table.begin(outer)
            table.write("_ITM_WU8", 0, bytes(8))
            table.cancel() if outer == KEPT else None
            table.begin(inner)
            table.write("_ITM_WU8", 3, MEMORY[:8])
            table.cancel(outer=True) if KEPT in (outer, inner) else None
            table.cancel()
            table.read("_ITM_RM128", 0)
            while table.lists.blocks:
                table.commit()
    yield table.case("blocks that are not cancelled")


def logs():
    """A byte that was logged twice goes back to its first log. A log of no bytes is served at the end too."""
    table = Table(MEMORY, 100)
    for place in range(0, 100, 4):
        table.save(place, bytes([place, place + 1, place + 2, 7]))
    table.begin()
    for size in [0, 1, 31, 32, 33, 64, 65, 98, 99, 100, 101, 2**64 - 1]:
        for place in [0, 1, 2, 99 - min(size, 99), 100 - min(size, 100), 99, 100, 101, 2**64 - 1]:
            table.begin()
            table.log_bytes(place, size)
            for at in range(0, 100, 4):
                table.save(at, bytes([size % 251, place % 241, at, 8]))
            table.log_bytes(place, size)
            table.save(48, bytes(8))
            table.cancel()
            for at in range(0, 96, 8):
                table.load(at, 8)
            table.load(96, 4)
    table.commit()
    yield table.case("logs")


def own_bytes():
    """Each log, load and store at every place of an arena: what is logged goes back."""
    table = Table(MEMORY, 40)
    for place in range(0, 40, 8):
        table.save(place, bytes(range(place + 60, place + 68)))
    for kind, size in SIZES.items():
        for place in range(42):
            table.begin()
            table.log(f"_ITM_L{kind}", place)
            for at in range(0, 40, 8):
                table.save(at, bytes([size + at, place, 1, 2, 3, 4, 5, 6]))
            table.cancel()
    for size in (1, 2, 4, 8):
        for place in range(42):
            table.begin()
            table.load(place, size)
            table.save(place, bytes([size, place, 7, 8, 9, 10, 11, 12])[:size])
            table.load(place, size)
            table.commit()
    table.begin()
    table.commit()
    yield table.case("own bytes")


def outside():
    """Calls outside blocks are told nowhere, and change nothing but the arena."""
    table = Table(MEMORY, 8)
    table.save(0, bytes(range(8)))
    table.begin()
    table.save(1, b"\x08\x09")
    table.load(7, 2)
    table.commit()
    refused = ["_ITM_WU8 0 r1", "_ITM_RU8 r1 0", "_ITM_LU1 0", "_ITM_LB 0 8", "_ITM_memsetW 0 9 8"]
    refused += ["_ITM_memcpyRnWt 0 0 8", "_ITM_memcpyRtWn 0 8 8", "_ITM_memmoveRtWt 0 8 8"]
    refused += ["_ITM_changeTransactionMode modeSerialIrrevocable", "_ITM_abortTransaction userAbort"]
    table.code += [*refused, "_ITM_inTransaction r2"]
    table.on_commit(1, 2)
    table.on_undo(1, 2)
    table.save(4, bytes([1, 1, 1, 1]))
    for _ in range(2):
        table.begin()
        table.read("_ITM_RM256", 0)
        table.commit()
    yield table.case("calls outside blocks")


def cases():
    for end in ENDS:
        yield from runs_of_calls(end)
        yield from runs_of_blocks(end)
    for some in (runs_that_are_full, deep, sixteen_blocks, kept_blocks, logs, own_bytes, outside):
        yield from some()

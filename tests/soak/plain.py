"""What a memory that nobody else uses answers to a thread's calls, and what they leave of it."""

import collections

from entries import (
    ABORT, ASKS, BEGIN, COMMIT, COPIES, FILLS, GOES, LOADS, LOG_BYTES, LOGS, MODE, NO_ABORT, NO_IRREVOCABLE, ON_COMMIT,
    ON_UNDO, OUTER, READS, STORES, WRITES,
)  # fmt: skip

WORD, CHUNK, DEEPEST = 8, 32, 16

# of an open block its properties; what stood at its begin: the memory, the bytes that were written, and how many
# actions of both kinds were registered; of each place of the arena that is logged in it the byte at the first log; and how
# many actions had run when its begin was first answered, and how many of those are told. All but the properties is for a
# rollback, so it counts no more once the transaction is irrevocable.
Block = collections.namedtuple("Block", "props memory written commits undos kept due ran")


def spelled(call):
    """A call as a history has it."""
    return " ".join(it.hex() if isinstance(it, bytes) else str(it) for it in call)


def pieces(start, end):
    """A range's bytes word by word, upwards."""
    while start < end:
        stop = min(end, start - start % WORD + WORD)
        yield start, stop
        start = stop


def chunks(size, down):
    """Parts of a range in the order in which a copy or a fill takes them, from its low end or from its high one."""
    if down:
        return [(max(end - CHUNK, 0), end) for end in range(size, 0, -CHUNK)]
    return [(start, min(start + CHUNK, size)) for start in range(0, size, CHUNK)]


def goes(name, values):
    """Whether a call is to make its transaction irrevocable."""
    return name == MODE or name == BEGIN and GOES in values[0].split("+")


def ranges(name, values):
    """The bytes that a call is for, in the order in which they are tested: whether they are the arena's, their place
    and their number."""
    if name in COPIES:
        to, source, size = values
        return [(COPIES[name].writes_arena, to, size), (COPIES[name].reads_arena, source, size)]
    if name in FILLS:
        return [(False, values[0], values[2])]
    if name == LOG_BYTES:
        return [(True, *values)]
    for sizes, is_arena in ((READS, False), (WRITES, False), (LOGS, True), (LOADS, True), (STORES, True)):
        if name in sizes:
            return [(is_arena, values[0], sizes[name])]
    return []


class Machine:
    def __init__(self, memory, arena, depth=DEEPEST):
        self.memory, self.arena = bytearray(memory), bytearray(arena)
        self.depth, self.deepest = depth, 0  # how many blocks may be open, and how many were
        self.blocks = []  # the outermost one first
        self.written = {}  # the bytes written of each word, in the order of first writing
        self.irrevocable = self.cancelled = False
        self.commits, self.undos = [], []  # actions
        self.due, self.ran = [], []  # those that have run, and those of them that no block told which ran again

    def one(self, call):
        """The reply to a call, in the history's spelling."""
        name, *values = call
        refusal = self.refusal(call)
        if refusal:
            return f"refused {refusal}"
        return EFFECTS[name](self, name, *values) or "ok"

    def refusal(self, call):
        """The first number for which the call is refused, if there is one."""
        return next((number for number, holds in self.reasons(*call) if holds), None)

    def reasons(self, name, *values):
        yield 1, not self.blocks and name not in (BEGIN, ASKS, *LOADS, *STORES)
        if name == ABORT:
            asked = self.blocks if OUTER in values else self.blocks[-1:]
            yield 5, any(NO_ABORT in block.props for block in asked)
            yield 6, self.irrevocable
        if goes(name, values):
            own = values[0] if name == BEGIN else ""
            yield 7, any(NO_IRREVOCABLE in props for props in (own, *(block.props for block in self.blocks)))
        yield 8, name == BEGIN and len(self.blocks) == self.depth
        for is_arena, place, size in ranges(name, values):
            yield 3 if is_arena else 2, place + size > len(self.arena if is_arena else self.memory)
        yield 4, name in COPIES and not COPIES[name].moves and self.overlap(name, *values)

    def overlap(self, name, to, source, size):
        """Whether a copy's ranges have a shared byte in common."""
        _, reads_arena, writes_arena = COPIES[name]
        return not reads_arena and not writes_arena and abs(to - source) < size

    def wrote(self):
        return self.irrevocable or bool(self.written)

    # blocks

    def begin(self, name, props):
        commits, undos, due, ran = map(len, (self.commits, self.undos, self.due, self.ran))
        self.blocks.append(Block(props, bytes(self.memory), dict(self.written), commits, undos, {}, due, ran))
        self.irrevocable = self.irrevocable or goes(name, [props])
        self.deepest = max(self.deepest, len(self.blocks))
        return "code 5"

    def commit(self, _):
        block = self.blocks.pop()
        if self.blocks:
            # what the block around it has logged itself counts
            self.blocks[-1].kept.update({**block.kept, **self.blocks[-1].kept})
        else:
            self.run("commit", self.commits)

    def abort(self, _, which):
        self.back()
        if which == OUTER:
            self.back_to_start()
        self.cancelled = not self.blocks
        return "code 24"

    def back(self):
        """Rolls the innermost block back."""
        block = self.blocks.pop()
        self.memory[:], self.written = block.memory, block.written
        for place, byte in block.kept.items():
            self.arena[place] = byte
        self.run("undo", reversed(self.undos[block.undos :]))
        del self.commits[block.commits :], self.undos[block.undos :]

    def back_to_start(self):
        """Rolls every open block back, the innermost first."""
        while self.blocks:
            self.back()

    def again(self):
        """Rolls the innermost block back, and begins it again; what has run since its begin was first answered."""
        block = self.blocks[-1]
        self.back()
        del self.ran[block.ran :]
        self.begin(BEGIN, block.props)
        self.blocks[-1] = self.blocks[-1]._replace(due=block.due)
        return self.due[block.due :]

    def run(self, kind, actions):
        """These actions run."""
        actions = [(kind, *action) for action in actions]
        self.due += actions
        self.ran += actions

    def mode(self, *_):
        self.irrevocable = True

    def asks(self, _):
        return f"code {(1 + self.irrevocable) if self.blocks else 0}"

    def on_commit(self, _, function, __, argument):
        self.commits.append((function, argument))

    def on_undo(self, _, function, argument):
        self.undos.append((function, argument))

    # bytes

    def read(self, name, place):
        return self.memory[place : place + READS[name]].hex()

    def write(self, _, place, data):
        for start, stop in pieces(place, place + len(data)):
            self.memory[start:stop] = data[start - place : stop - place]
            if not self.irrevocable:
                word = start // WORD
                self.written[word] = self.written.get(word, frozenset()).union(range(start, stop))

    def log(self, name, place, size=None):
        for at in range(place, place + (LOGS[name] if size is None else size)):
            self.blocks[-1].kept.setdefault(at, self.arena[at])

    def copy(self, name, to, source, size):
        data = bytes((self.arena if COPIES[name].reads_arena else self.memory)[source : source + size])
        if COPIES[name].writes_arena:
            self.arena[to : to + size] = data
        else:
            self.write_chunks(to, data, down=source < to and self.overlap(name, to, source, size))

    def fill(self, _, to, byte, size):
        self.write_chunks(to, bytes([byte]) * size, down=False)

    def write_chunks(self, to, data, down):
        for start, stop in chunks(len(data), down):
            self.write(None, to + start, data[start:stop])

    def load(self, name, place):
        return self.arena[place : place + LOADS[name]].hex()

    def store(self, _, place, data):
        self.arena[place : place + len(data)] = data


EFFECTS = {
    BEGIN: Machine.begin,
    COMMIT: Machine.commit,
    ABORT: Machine.abort,
    MODE: Machine.mode,
    ASKS: Machine.asks,
    ON_COMMIT: Machine.on_commit,
    ON_UNDO: Machine.on_undo,
    LOG_BYTES: Machine.log,
    **dict.fromkeys(READS, Machine.read),
    **dict.fromkeys(WRITES, Machine.write),
    **dict.fromkeys(LOGS, Machine.log),
    **dict.fromkeys(COPIES, Machine.copy),
    **dict.fromkeys(FILLS, Machine.fill),
    **dict.fromkeys(LOADS, Machine.load),
    **dict.fromkeys(STORES, Machine.store),
}

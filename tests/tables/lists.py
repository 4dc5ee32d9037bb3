"""What a thread's calls do, on plain lists of bytes that are copied at each begin of a block.

Each call gives the reply that a history is to have. Nothing here knows how the runtime works.
"""

import re

SIZES = {"U1": 1, "U2": 2, "U4": 4, "U8": 8, "F": 4, "D": 8, "M64": 8, "M128": 16, "M256": 32, "CF": 8, "CD": 16}
READ_HINTS = ["R", "RaR", "RaW", "RfW"]
WRITE_HINTS = ["W", "WaR", "WaW"]

KEPT, REVOCABLE, GOES = "pr_hasNoAbort", "pr_hasNoIrrevocable", "pr_doesGoIrrevocable"
DEEPEST = 16

COPY = re.compile("_ITM_mem(cpy|move)R(n|t|taR|taW)W(n|t|taR|taW)")


def words(place, size):
    """Of each word that the range touches, how many of its bytes."""
    if size == 0:
        return []
    return [min(place + size, word + 8) - max(place, word) for word in range(place // 8 * 8, place + size, 8)]


class Block:
    """An open block, and the lists as they were at its begin."""

    def __init__(self, lists, props):
        self.props = props
        self.memory = bytes(lists.memory)
        self.written = dict(lists.written)
        self.kept = {}  # the bytes of the arena that were logged, by place
        self.commits, self.undos = len(lists.commits), len(lists.undos)


class Lists:
    """The memory, a thread's own bytes, its open blocks and what it has registered."""

    def __init__(self, memory, arena):
        self.memory, self.arena = bytearray(memory), bytearray(arena)
        self.blocks = []
        self.begin_outside()

    def begin_outside(self):
        self.commits, self.undos, self.ran = [], [], []
        self.written = {}  # the bytes that are written, by word
        self.irrevocable = False

    def begin(self, props):
        if GOES in props and any(REVOCABLE in p for p in [props, *(b.props for b in self.blocks)]):
            return "refused 7"
        if len(self.blocks) == DEEPEST:
            return "refused 8"
        if not self.blocks:
            self.begin_outside()
        self.blocks.append(Block(self, props))
        if GOES in props:
            self.irrevocable = True
        return "code 5"

    def commit(self):
        closed = self.blocks.pop()
        if self.blocks:
            outer = self.blocks[-1]
            outer.kept = {**closed.kept, **outer.kept}
        else:
            self.ran += [f"ran commit {action}" for action in self.commits]
        return "ok"

    def back(self):
        """The innermost block is rolled back."""
        block = self.blocks.pop()
        self.memory[:], self.written = block.memory, block.written
        for place, byte in block.kept.items():
            self.arena[place] = byte
        self.ran += [f"ran undo {action}" for action in reversed(self.undos[block.undos :])]
        del self.commits[block.commits :], self.undos[block.undos :]

    def cancel(self, outer):
        blocks = self.blocks if outer else self.blocks[-1:]
        if any(KEPT in block.props for block in blocks):
            return "refused 5"
        if self.irrevocable:
            return "refused 6"
        for _ in range(len(blocks)):
            self.back()
        return "code 24"

    def mode(self):
        if any(REVOCABLE in block.props for block in self.blocks):
            return "refused 7"
        self.irrevocable = True
        return "ok"

    def in_transaction(self):
        return "code 2" if self.irrevocable else "code 1"

    def read(self, place, size):
        return bytes(self.memory[place : place + size]).hex() if place + size <= len(self.memory) else "refused 2"

    def write(self, place, new):
        if place + len(new) > len(self.memory):
            return "refused 2"
        self.memory[place : place + len(new)] = new
        if not self.irrevocable:
            for at in range(place, place + len(new)):
                self.written[at // 8] = self.written.get(at // 8, frozenset()) | {at}
        return "ok"

    def fill(self, place, byte, size):
        return self.write(place, bytes([byte % 256]) * size) if size <= len(self.memory) else "refused 2"

    def log(self, place, size):
        if place + size > len(self.arena):
            return "refused 3"
        for at in range(place, place + size):
            self.blocks[-1].kept.setdefault(at, self.arena[at])
        return "ok"

    def load(self, place, size):
        return bytes(self.arena[place : place + size]).hex() if place + size <= len(self.arena) else "refused 3"

    def save(self, place, new):
        if place + len(new) > len(self.arena):
            return "refused 3"
        self.arena[place : place + len(new)] = new
        return "ok"

    def copy(self, name, to, start, size):
        """A copy by its name, as `_ITM_memcpyRnWt`, whose sides are n, the arena, or of the memory."""
        kind, source, target = COPY.fullmatch(name).groups()
        if target == "n":
            if to + size > len(self.arena):
                return "refused 3"
            new = self.read(start, size)
            return new if "refused" in new else self.save(to, bytes.fromhex(new))
        if to + size > len(self.memory):
            return "refused 2"
        new = self.load(start, size) if source == "n" else self.read(start, size)
        if "refused" in new:
            return new
        if source != "n" and kind == "cpy" and start < to + size and to < start + size:
            return "refused 4"
        return self.write(to, bytes.fromhex(new))

    def on_commit(self, action):
        self.commits.append(action)
        return "ok"

    def on_undo(self, action):
        """In an irrevocable transaction it never runs, since no block is rolled back."""
        self.undos.append(action)
        return "ok"

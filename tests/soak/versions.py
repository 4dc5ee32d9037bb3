"""Histories of versions 2 and 3, made of legal ones. They are legal too."""

import verdict
from entries import ABORT, BEGIN, COMMIT, INNER, LOADS, LOG_BYTES
from mutation import FUNCTIONS, LAST
from plain import DEEPEST, Machine, spelled

MOST = 64  # how many blocks may be open at most


def version_of(text):
    """The version that a text's first line tells, if it does."""
    line, *others = text.decode("latin-1").split("\n", 1)
    return verdict.VERSIONS.get(line) if others else None


class Teller:
    """Tells a legal history anew: the same attempts and calls, but that some blocks ran again from some bytes of the arena, that
    there are some more blocks, and that another number of them may be open. The replies are those of the plain machine."""

    def __init__(self, random, text):
        self.random = random
        self.history = verdict.read(text)
        self.deepest = max((it.deepest for it in verdict.check(self.history).values()), default=1)
        calls = [call for attempt in self.history.attempts for call in attempt.calls]
        self.is_full = any(call.reply == "refused 8" for call in calls)

    def one_in(self, number):
        return self.random.randrange(number) == 0

    def text(self, version):
        """The text of the history in a version."""
        self.depth = DEEPEST if version < 3 or self.is_full else self.some_depth()
        memory, attempts, _, clock, final = self.history[2:]
        memories, told = [memory], {}
        for attempt in verdict.in_order(attempts):
            machine, told[attempt.row] = self.told(attempt, memories[attempt.at])
            if attempt.outcome == "committed":
                memories.append(bytes(machine.memory))
        lines = [f"itm-history {version}", *[f"depth {self.depth}"] * (version == 3), f"memory {memory.hex()}"]
        lines += [line for attempt in attempts for line in told[attempt.row]]
        # the bytes beside an odd clock are not compared
        lines.append(f"final {clock} {(final if clock % 2 else memories[-1]).hex()}")
        return "".join(f"{line}\n" for line in lines).encode()

    def some_depth(self):
        """A number of blocks with which each begin is answered as it was; mostly a small one, so that it is met."""
        if not self.one_in(3):
            return self.deepest
        return self.random.choice([DEEPEST, MOST, self.random.randint(self.deepest, MOST)])

    def told(self, attempt, memory):
        """The machine that an attempt leaves which begins with this memory, and its lines."""
        machine = Machine(memory, attempt.arena, self.depth)
        machine.one((BEGIN, attempt.props))
        lines = [f"attempt {' '.join(map(str, attempt[1:6]))}", f"arena {attempt.arena.hex() or '-'}"]
        for call in attempt.calls:
            if self.one_in(8) or len(machine.blocks) == self.depth and self.one_in(3):
                lines += self.block(machine)
            lines += self.call(machine, call.values)
        return machine, [*lines, *(f"ran {' '.join(map(str, it))}" for it in attempt.ran), "end"]

    def call(self, machine, call):
        """The lines of a call, and of its block where it ran again."""
        reply = machine.one(call)
        lines = [f"call {spelled(call)} = {reply}"]
        if call[0] == BEGIN and reply == "code 5" and not machine.irrevocable and self.one_in(2):
            machine.arena[:] = self.changed(machine.arena)
            lines.append(f"restart {machine.arena.hex() or '-'}")
            for _ in range(self.random.choice([0, 0, 1, 2])):
                lines.append(f"undone {self.random.choice([1, 2, FUNCTIONS])} {self.random.choice([0, 1, LAST])}")
        return lines

    def block(self, machine):
        """The lines of one more block, which logs, lays and loads bytes of the arena, with others within it, and of a load that
        sees what it has left."""
        lines = self.call(machine, (BEGIN, "-"))
        if lines[0].endswith("code 5"):
            for _ in range(self.random.randint(1, 4)):
                lines += self.block(machine) if self.one_in(4) else self.call(machine, self.access(machine.arena))
            lines += self.call(machine, self.random.choice([(COMMIT,), (ABORT, INNER)]))
            if lines[-1].endswith("refused 6"):
                lines += self.call(machine, (COMMIT,))
            lines += self.call(machine, self.load(machine.arena))
        return lines

    def access(self, arena):
        place, size = self.random.randrange(min(len(arena), 16) + 1), self.random.choice([1, 1, 8])
        log, store = (LOG_BYTES, place, self.random.randint(0, 8)), (f"st{size}", place, self.random.randbytes(size))
        return self.random.choice([log, log, store, store, self.load(arena)])

    def load(self, arena):
        return self.random.choice(list(LOADS)), self.random.randrange(min(len(arena), 8) + 1)

    def changed(self, arena):
        """The bytes of an arena as a block may leave them that is to run again."""
        if not arena or self.one_in(2):
            return arena
        at = self.random.randrange(len(arena))
        end = min(at + self.random.randint(1, 8), len(arena))
        return arena[:at] + self.random.randbytes(end - at) + arena[end:]

"""The text of a history. It has one spelling."""

import itertools
import re

import plain
from entries import PROPS, spelled

OUTCOMES = ["committed", "readonly", "cancelled", "conflict", "full", "unfinished"]


def any_of(texts):
    return f"(?:{'|'.join(texts)})"


SOME_PROPS = any_of(re.escape(spelled(some)) for n in range(4) for some in itertools.combinations(PROPS, n))


class Attempt:
    """A try that got past its begin, by a thread's transaction."""

    def __init__(self, thread, nth, props, transaction):
        self.thread, self.nth, self.props, self.transaction = thread, nth, props, transaction
        self.arena, self.calls, self.outcome = bytes(transaction.machine.arena), [], "unfinished"
        self.begins = []  # of each open inner block how many calls there were with its begin
        self.restarts = {}  # of such numbers from which arena the block ran again, and what had run

    def add(self, call, reply):
        self.calls.append((call, reply))
        inner = max(len(self.transaction.machine.blocks) - 1, 0)
        self.begins = self.begins[:inner] + (inner - len(self.begins)) * [len(self.calls)]

    def again(self, undone):
        """The innermost block runs again, after these actions have run."""
        kept = self.begins[-1]
        del self.calls[kept:]
        self.restarts = {number: it for number, it in self.restarts.items() if number < kept}
        self.restarts[kept] = bytes(self.transaction.machine.arena), undone

    def called(self):
        """The lines of the calls, and of the blocks that ran again."""
        for number, (call, reply) in enumerate(self.calls, 1):
            yield f"call {plain.spelled(call)} = {reply}"
            if number in self.restarts:
                arena, undone = self.restarts[number]
                yield f"restart {arena.hex() or '-'}"
                yield from (f"undone {function} {argument}" for _, function, argument in undone)

    def lines(self):
        at, ran = self.transaction.snapshot // 2, self.transaction.machine.ran
        yield f"attempt {self.thread} {self.nth} {at} {self.outcome} {self.props}"
        yield f"arena {self.arena.hex() or '-'}"
        yield from self.called()
        yield from (f"ran {kind} {function} {argument}" for kind, function, argument in ran)
        yield "end"


def text(script, attempts, clock, final):
    version = script.version()
    lines = [f"itm-history {version}", *[f"depth {script.depth}"] * (version == 3), f"memory {script.opening.hex()}"]
    for attempt in attempts:
        lines += attempt.lines()
    lines.append(f"final {clock} {final.hex()}")
    return "".join(f"{line}\n" for line in lines)

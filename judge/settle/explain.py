"""What is wrong with a history, for who knows the runtime and not the judge: what was read and what the plain machine
has, whose attempt it was, and where in the program."""

import machine
from private import FREED
from recording import WORD

CALLS = 6  # so many are shown up to the one that is wrong
PLAIN = "if the program stores here without a transaction, that is out of scope"
FILLED = "that is what the judge fills memory with as it is freed"
REACHED = "this attempt had read a pointer to it: the runtime freed it early, or the program what others still reach"
KEPT = "this attempt had read no pointer to it: a program that kept one past the transaction that took it out is wrong"


def ordinal(number):
    """1st, 2nd, 3rd, 4th, 11th, .."""
    if number % 100 in (11, 12, 13):
        return f"{number}th"
    return f"{number}{ {1: 'st', 2: 'nd', 3: 'rd'}.get(number % 10, 'th')}"


def whose(one):
    range_ = f"{one.low} to {one.high}" if one.low != one.high else f"{one.low}"
    outcome = "committed" if one.may_commit else one.outcome
    return [
        f"thread {one.thread}, {ordinal(one.number)} attempt at its block, {outcome}",
        f"it stands after {one.at} commits; by its time that may be {range_}",
    ]


def pointers(calls):
    """What these calls read that may be an address."""
    for data in (call[3] for call in calls if call[0] == machine.READ):
        for at in range(0, len(data) - WORD + 1, WORD):
            yield int.from_bytes(data[at : at + WORD], "little")


def writes_to(calls, start, stop):
    """Whether one of these calls writes to any of these bytes."""
    kinds = (machine.WRITE, machine.COPY, machine.FILL)
    return any(call[0] in kinds and call[1] < stop and start < call[2] for call in calls)


class Explanation:
    """What can be told of a run that was settled, and written as these texts."""

    def __init__(self, run, names, texts):
        self.run, self.names, self.texts = run, names, texts
        placed = [(one, text.path, line) for text in texts for one, line in zip(text.piece.attempts, text.heads)]
        self.line_of = {id(one): (path, line) for one, path, line in placed}
        self.order = sorted((one for one, _, _ in placed if one.commits), key=lambda one: one.at)

    def about(self, text, line, kind):
        """Lines on a verdict on one of the texts."""
        one, row = text.at_line(line)
        if one is None:
            return self._final(text)
        if kind == "position":
            return whose(one) + ["another commit stands there, or there are not so many"]
        if kind != "reply":
            return whose(one)
        calls = [f"{line - row + i}: {machine.in_history(one.lines[i - 1]).strip()}" for i in range(2, row + 1)]
        if one.lines[row - 1].startswith("call ld"):
            due = machine.own_due(one.lines[:row]).hex()
            told = [f"the thread's own memory, which the block had logged, has to be {due} again"]
        else:
            told = self._read(one, one.lines[1:row])
        return [*calls[-CALLS:], *told, *whose(one)]

    def _memory_after(self, commits, look=lambda memory, one: None):
        """The plain machine's memory after so many commits; looks at it before each."""
        memory = bytearray(self.run.opening)
        for one in self.order[:commits]:
            look(memory, one)
            machine.run(memory, one.calls)
        return memory

    def _read(self, one, lines):
        """Lines on a read of an attempt that does not fit, the last of these of its calls."""
        calls = [call for call in (machine.parse(line.split()) for line in lines) if call]
        if not calls or calls[-1][0] != machine.READ:
            return ["the plain machine answers that call otherwise"]
        _, start, stop, told = calls.pop()
        memory = self._memory_after(one.at)
        machine.run(memory, calls)
        due, writers, had = memory[start:stop], [], []

        def look(memory, commit):
            if memory[start:stop] == told:
                had.append(commit)
            if writes_to(commit.calls, start, stop):
                writers.append(commit)

        self._memory_after(one.at, look)
        own = writes_to(calls, start, stop)
        by = f"written by {self._commit(writers[-1])}" if writers else "as at the start"
        if own:
            cancelled = ", of which a block was cancelled" if (machine.CANCEL,) in calls else ""
            by = f"by this attempt itself{cancelled}"
        lines = [f"the plain machine has {due.hex()} there: {by}", f"place {start} is {self._spread(start, stop)}"]
        if had:
            lines.append(f"{told.hex()} stood there last before {self._commit(had[-1])}")
        if set(told) == {FREED} and not self.run.words[start // WORD].kept:
            lines += self._freed(start, calls)
        elif not own and (not writers or self._returned_before(writers[-1], one)):
            lines.append(PLAIN)
        return lines

    def _freed(self, place, calls):
        """Lines on a read of freed memory, by an attempt with these calls before it."""
        block = self.names.block(self.run.words[place // WORD].address)
        pointed = block and any(0 <= address - block.address < block.size for address in pointers(calls))
        return [FILLED, REACHED if pointed else KEPT]

    def _returned_before(self, commit, one):
        """Whether a commit had returned before all that the range of an attempt tells of its begin."""
        return sum(other.commits and other.ended <= commit.ended for other in self.run.attempts) <= one.low

    def _commit(self, one):
        path, line = self.line_of[id(one)]
        return f"commit {one.at}, of thread {one.thread}, line {line}" + (f" of {path}" if len(self.texts) > 1 else "")

    def _spread(self, start, stop):
        first, last = self.names.of(start), self.names.of(stop - 1)
        return first if stop - start <= WORD else f"{first} up to {last}"

    def _final(self, text):
        """Lines on last bytes that are not those that the commits left."""
        memory, told = self._memory_after(len(self.order)), text.piece.final
        wrong = [at for at in range(0, len(memory), WORD) if memory[at : at + WORD] != told[at : at + WORD]]
        lines = [f"{len(wrong)} words are at the end not what the commits left"]
        for at in wrong[:3]:
            left, now = memory[at : at + WORD].hex(), told[at : at + WORD].hex()
            lines.append(f"{self.names.of(at)} is {now}; the plain machine has {left}")
        return lines

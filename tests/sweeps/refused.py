"""Scripts through `sched` and `asm`, and histories through `check`, with each growth of memory refused in turn: it alone,
and it with all that come after it. A growth is an allocation, or a longer one in the place of another.

A run ends with `itmrun: no memory` and nothing written, or as with ample memory: a reader that gets no larger buffer may do
with the one that it has. A run of `sched` may end as well with the whole answer that run.py works out for one thread that
finds no memory at one of its calls. Where all that comes after is refused too, several threads may find none: then the
history has to be legal, each thread's tries have to be what its code does, and the errors and the status have to fit.
"""

import collections
import random
import re

import verdict
from driver import made
from run import GAVE_UP, STARVED, starved
from threads import Followed, legal
from versions import Teller
from worked import NO_MEMORY, each, expect

BEFORE, THREAD, WHOLE = "no memory", "a thread found no memory", "whole"
LEFT = "left in the middle"
ERRORS = re.compile(rf"(?:itmrun: thread (?:\d+) (?:{GAVE_UP}|{STARVED})\n)*")


class Stood(Followed):
    """A thread that its schedule may leave in the middle."""

    def leave(self, attempt, machine):
        self.machine = machine
        if attempt.outcome == "unfinished":
            self.end = LEFT
        else:
            super().leave(attempt, machine)

    def may_say(self, end):
        """Whether the errors may tell such an end of it, or none."""
        if self.end == LEFT:
            return end is None or end == STARVED and self.machine.irrevocable
        return self.end in (None, end)


def fits(program, script, answer):
    """The answer has to be that of some run of the script in which threads find no memory."""
    output, errors, status = answer
    history, machines = legal(program, output)
    expect(history.memory == script.opening, "line 2 has to be", script.opening.hex())
    threads = [Stood(number, script) for number in range(len(script.codes))]
    for attempt in sorted(history.attempts, key=lambda it: it.thread):
        threads[attempt.thread].follow(attempt, machines[attempt.row])
    said = errors.decode()
    expect(ERRORS.fullmatch(said), "the errors are", said)
    ends = {int(line.split()[2]): line.split(" ", 3)[3] for line in said.splitlines()}
    expect(list(ends) == sorted(set(ends)) and len(ends) == said.count("\n"), "the errors are", said)
    expect(status == (4 if ends else 0), "the status is", status)
    for thread in threads:
        end = ends.get(thread.number)
        expect(thread.may_say(end), "thread", thread.number, "cannot have ended so:", end)
    return STARVED in ends.values()


def sched(setup, worked):
    """The kinds of answers to a script."""
    counts = collections.Counter()
    script = None if worked.has_fault else worked.script()
    one = set(starved(script)) if script else ()
    for number, answer in each(setup, "sched", worked.text, "REFUSE"):
        kind = {NO_MEMORY: BEFORE, worked.ample: WHOLE}.get(answer, THREAD)
        expect(kind != THREAD or answer in one, "growth", number, "refused: the answer is", answer)
        counts[kind] += 1
    for number, answer in each(setup, "sched", worked.text, "REFUSE", REFUSE_LATER=1):
        kind = {NO_MEMORY: BEFORE, worked.ample: WHOLE}.get(answer, THREAD)
        if kind == THREAD:
            expect(script and fits(setup.program, script, answer), "growths from", number, "refused: the answer is", answer)
        counts[kind] += 1
    return counts


def plainly(setup, command, text, ample):
    """The kinds of answers to a text, where no thread is run."""
    counts = collections.Counter()
    for later in ({}, {"REFUSE_LATER": 1}):
        for number, answer in each(setup, command, text, "REFUSE", **later):
            expect(answer in (ample, NO_MEMORY), "growth", number, "refused", *later, "the answer is", answer)
            counts[WHOLE if answer == ample else BEFORE] += 1
    return counts


def asm(setup, worked):
    return plainly(setup, "asm", worked.text, made(setup.program, "asm", worked.text))


def check(setup, worked):
    """Of its history, of that with a clock that is too late, and of that in versions 2 and 3 where blocks run again in them."""
    history = worked.ample[0]
    late = re.sub(rb"^final (\d+)", lambda it: b"final %d" % (int(it[1]) + 2), history, flags=re.M)
    teller = history and Teller(random.Random(worked.name), history)
    again = [it for it in map(teller.text, (2, 3)) if b"\nrestart" in it] if teller else []
    texts = [history, late, *again]
    return sum((plainly(setup, "check", it, verdict.answer(verdict.judge(it))) for it in texts), collections.Counter())

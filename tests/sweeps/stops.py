"""Scripts through `sched` with one of their threads stopped for ever, after each of its events: the schedule is cut there,
and the other threads go on to their ends, by number. The answer has to be the one that run.py works out, and the history has
to be legal. Patience and retries of a script that has more of them than one that does not say are as in that one: else the
others would look millions of times at a clock that stays odd."""

import collections
import itertools

import verdict
from driver import compare, judged, made
from run import Run
from script import ANY
from worked import expect

ITEMS = 1000  # of a line
PATIENCE, RETRIES = 8, 100  # where nothing is said


class Traced(Run):
    """A run that tells which thread took each event."""

    def __init__(self, script):
        self.order = []
        super().__init__(script)

    def take(self, number, steps):
        before = self.events
        super().take(number, steps)
        self.order += [number] * (self.events - before)


def schedules(script):
    """Of each thread and each number of its events the schedule in which it takes no more."""
    order, threads = Traced(script).order, range(len(script.codes))
    for stopped in threads:
        others = [(number, ANY) for number in threads if number != stopped]
        for place in [0, *(place for place, number in enumerate(order, 1) if number == stopped)]:
            items = [(number, len(list(same))) for number, same in itertools.groupby(order[:place])]
            if items + others:
                yield items + others


def is_kept(fields):
    """Whether a line stands in a script with another schedule."""
    most = {".patience": PATIENCE, ".retries": RETRIES}
    return fields[:1] != [".schedule"] and (fields[:1] == [] or fields[0] not in most or int(fields[1]) <= most[fields[0]])


def scheduled(text, items):
    """A script with another schedule."""
    words = [f"{number}!" if steps == ANY else f"{number}x{steps}" for number, steps in items]
    lines = [" ".join([".schedule", *words[at : at + ITEMS]]) for at in range(0, len(words), ITEMS)]
    lines += [it for it in text.decode("latin-1").split("\n") if is_kept(it.split(";")[0].split())]
    return "\n".join(lines).encode("latin-1")


def stops(setup, worked):
    """How often a thread was stopped, and how the runs ended."""
    counts = collections.Counter()
    if worked.has_fault:
        return counts
    script = worked.script()
    script.patience, script.retries = min(script.patience, PATIENCE), min(script.retries, RETRIES)
    for items in list(schedules(script)):
        script.items = items
        answer = made(setup.program, "sched", scheduled(worked.text, items))
        try:
            compare(answer, Run(script).answer())
            expect(judged(setup.program, answer[0]) == verdict.LEGAL, "the history is not legal")
        except Exception as wrong:
            wrong.args = ("with the schedule", items, *wrong.args)
            raise
        counts["a thread gave up" if answer[1] else "no thread gave up"] += 1
    return counts

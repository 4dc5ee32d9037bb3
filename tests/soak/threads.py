"""Runs scripts through `itmrun threads`. What it answers differs from run to run. So each answer is followed through its
script, by the documents alone: its history has to be legal, the calls of each thread's tries have to be those that its
code makes where it is given these replies, and the end of each thread, the errors and the status have to fit.

threads.py PROGRAM FOLDER COUNT SEED: random scripts.
threads.py PROGRAM FOLDER FILE: the script in FILE.

Stops at the first one that fails, and leaves it in FOLDER with what the program wrote.
"""

import collections
import sys

import verdict
from driver import Wrong, compare, each, expect, made, tell
from entries import BEGIN, COMMIT, COPIES, READS
from plain import goes, spelled
from run import FINISHED, GAVE_UP, STARVED, Run, Thread
from script import ANY, Script

# threads run their code often enough to meet
SHAPE = {"threads": (1, 2, 2, 3, 3, 4, 4, 4), "times": 40}
STOPPED = {"conflict": None, "full": GAVE_UP, "nomemory": STARVED}  # how the thread ends with a try that ends so
OUTCOMES = ["committed", "readonly", "cancelled", "conflict", "full"]
COUNTED = [
    ["scripts", "scripts with conflicts", "threads", "threads that gave up"],
    ["attempts", *OUTCOMES, "entered again", "blocks that ran again", "irrevocable", "calls", "actions run"],
]


def loads(name):
    """Whether a call loads words of the memory."""
    return name in READS or name in COPIES and not COPIES[name].reads_arena


class Followed(Thread):
    """A thread of a script, whose code is followed by the tries that a history tells of it."""

    def __init__(self, number, script):
        super().__init__(number, script, [], None)
        self.next_block()

    def next_block(self):
        self.tried, self.entry = 0, "code 5"  # the last try of the block, and what its begin is answered

    def follow(self, attempt, machine):
        """Goes on to the end of the next try, which leaves this machine."""
        self.enter(attempt)
        again = sum(call.again is not None for call in attempt.calls)
        expect(again <= self.script.restarts, "line", attempt.row, "is of a try with", again, "blocks that ran again")
        for call in attempt.calls:
            self.calls(call.row, tuple(call.values))
            self.player.answer(call.reply)
        self.leave(attempt, machine)
        self.arena = bytes(machine.arena)

    def calls(self, row, values):
        """The call of this line has to be the one that the code makes."""
        call = self.player.call()
        expect(call == values, "line", row, "has to be of", call and spelled(call))

    def enter(self, attempt):
        """Goes past the begin of a try."""
        expect(self.end is None and self.to_block(), "line", attempt.row, "is of a thread that has ended")
        self.calls(attempt.row, (BEGIN, attempt.props))
        expect(attempt.arena == self.arena, "line", attempt.row + 1, "has to be", self.arena.hex())
        is_next = self.tried < attempt.nth <= self.script.retries + 1
        expect(is_next, "line", attempt.row, "is of try", attempt.nth, "after try", self.tried)
        self.player.answer(self.entry)
        self.tried, self.entry = attempt.nth, "code 9"

    def leave(self, attempt, machine):
        """The end of a try. Where its last call was not answered, it has no line."""
        if attempt.outcome in STOPPED:
            call = self.player.call()
            takes = call[0] == COMMIT or goes(call[0], call[1:])
            may = takes or attempt.outcome == "conflict" and loads(call[0]) or attempt.outcome == "nomemory"
            expect(may, "line", attempt.row, "cannot end so at", spelled(call))
            self.end = STOPPED[attempt.outcome]
            self.player.restart()
        else:
            due = "cancelled" if machine.cancelled else "committed" if machine.wrote() else "readonly"
            expect(attempt.outcome == due, "line", attempt.row, "is of a try that is", due)
            self.next_block()

    def finish(self, errors):
        """How the thread ended after its last try that has lines. Where its code goes on, only the errors tell if there was
        no memory for its next try, or for a begin that is refused."""
        asked = self.asked
        goes_on = self.to_block()
        if self.end is None and (goes_on or self.asked > asked) and self.line(STARVED) in errors:
            self.end = STARVED
        elif self.end is None and goes_on:
            self.end = GAVE_UP
        self.end = self.end or FINISHED

    def line(self, end):
        """The line that tells of such an end."""
        return f"itmrun: thread {self.number} {end}\n"


def legal(program, text):
    """The history of a text, and the plain machines that its tries leave, by their rows. It has to be legal."""
    answer = made(program, "check", text)
    expect(answer == verdict.answer(verdict.LEGAL), "check answers", answer)
    try:
        history = verdict.read(text)
        return history, verdict.check(history)
    except verdict.Found as found:
        raise Wrong("the history is no legal one:", *found.args[0]) from found


def followed(script, history, machines, errors):
    """The threads of a script, as a history and the errors tell of them."""
    expect(history.version == script.version(), "line 1 tells version", history.version)
    expect(history.depth == script.depth, "line 2 tells depth", history.depth)
    expect(history.memory == script.opening, "the memory has to be", script.opening.hex())
    numbers = [it.thread for it in history.attempts]
    expect(numbers == sorted(numbers), "the tries do not stand by thread")
    expect(max(numbers, default=0) < len(script.codes), "there is no thread", max(numbers, default=0))
    threads = [Followed(number, script) for number in range(len(script.codes))]
    for attempt in history.attempts:
        threads[attempt.thread].follow(attempt, machines[attempt.row])
    for thread in threads:
        thread.finish(errors)
    return threads


def ended(threads):
    """The errors and the status that tell how the threads ended."""
    told = [it for it in threads if it.end != FINISHED]
    return "".join(it.line(it.end) for it in told).encode(), 4 if told else 0


def counted(history, threads, machines):
    """What a run had of each kind of what is counted."""
    counts = collections.Counter(attempt.outcome for attempt in history.attempts)
    counts.update({"scripts": 1, "scripts with conflicts": counts["conflict"] > 0, "threads": len(threads)})
    counts.update({"attempts": len(history.attempts), "calls": sum(len(it.calls) for it in history.attempts)})
    counts["entered again"] = sum(it.nth > 1 for it in history.attempts)
    counts["blocks that ran again"] = sum(call.again is not None for it in history.attempts for call in it.calls)
    counts["threads that gave up"] = sum(it.end == GAVE_UP for it in threads)
    for machine in machines.values():
        counts.update({"actions run": len(machine.ran), "irrevocable": machine.irrevocable})
    return counts


def alone(script):
    """The answer of a script with one thread, which nobody disturbs."""
    script.items = [(0, ANY)]
    return Run(script).answer()


def run_of(program, script, answer):
    """The history, the threads and the machines of an answer, which has to fit its script."""
    history, machines = legal(program, answer[0])
    threads = followed(script, history, machines, answer[1].decode())
    expect(answer[1:] == ended(threads), "the errors and the status are", answer[1:], "and have to be", ended(threads))
    return history, threads, machines


def tried(program, written):
    """The counts of a script."""
    script = Script(written["script.itm"].decode("latin-1"))
    answer = made(program, "threads", written["script.itm"])
    written.update({"history": answer[0], "errors": answer[1]})
    history, threads, machines = run_of(program, script, answer)
    expect(all(it.end != STARVED for it in threads), "a thread found no memory")
    if len(threads) == 1:
        compare(answer, alone(script))
    return counted(history, threads, machines)


def main(program, folder, *what):
    counts = each(lambda written, _: tried(program, written), folder, *what, **SHAPE)
    if counts is None:
        return 1
    tell(counts, COUNTED)
    return 0


if __name__ == "__main__":
    sys.exit(main(*sys.argv[1:]))

"""The table of the steps of a script, as `itmsteps` prints it: python3 table.py FILE [THREAD,THREAD.. [FROM [TO]]]."""

import sys

from norec import CONFLICT, Exchange, Store
from run import GAVE_UP, STARVED, Run, Thread
from script import Script


def number(it):
    return it if isinstance(it, int) else int.from_bytes(it, "little")


def cell(it):
    return f"[{8 * (it - 1)}]" if it else "clock"


def shown(operation, found):
    """An operation, with what it finds."""
    match operation:
        case Store(it, value):
            return f"{cell(it)} := {number(value)}"
        case Exchange(_, old, _):
            return f"take {old}" + (f": finds {found}" if found != old else "")
    return f"{cell(operation.cell)} = {number(found)}"


class Told(Thread):
    """A thread that notes what its calls come to: a reply, a block that runs again, the end of a try or of none."""

    noted = ()  # since the last event

    def note(self, what, of=None):
        self.noted = [*self.noted, (what, of)]

    def calls(self, transaction):
        attempt = self.attempt
        self.note("begun", transaction.snapshot // 2)
        add, again = attempt.add, attempt.again
        attempt.add = lambda call, reply: (self.note("reply", reply), add(call, reply))
        attempt.again = lambda undone: (self.note("restarted", attempt.begins[-1]), again(undone))
        yield from super().calls(transaction)

    def over(self, outcome):
        self.note("over" if self.attempt else "not begun", (outcome, self.attempt))
        super().over(outcome)

    def came(self, operation):
        """What came of an event with this operation."""
        noted, self.noted = self.noted, ()
        if not noted:
            return ""
        ends = [of for what, of in noted if what == "over"]
        what, of = ("over", ends[0]) if ends else noted[0]
        match what:
            case "over":
                outcome, attempt = of
                what = {"nomemory": "no memory"}.get(outcome, outcome)
                if outcome == "committed":
                    what += f" at {attempt.transaction.snapshot // 2}"
                if outcome == CONFLICT and operation.cell and not isinstance(operation, (Store, Exchange)):
                    what += f" at {cell(operation.cell)}"
            case "begun":
                what += f" at {of}"
            case "reply":
                what = of
        end = {GAVE_UP: ", gave up", STARVED: ", found no memory"}.get(self.end, "")
        return f" | {what}{end}"


class Table(Run):
    """A run whose events are told."""

    def __init__(self, script, threads, first, last):
        self.columns, self.first, self.last, self.lines = threads, first, last, []
        super().__init__(script)

    def take(self, thread, steps):
        while steps > 0 and (operation := self.next[thread]):
            text = shown(operation, self.cells[operation.cell])
            super().take(thread, 1)
            self.tell(thread, text, self.threads[thread].came(operation))
            steps -= 1

    def tell(self, thread, text, came):
        if thread in self.columns and self.first <= self.events <= self.last:
            columns = "".join(f"{text if it == thread else '':26} | " for it in self.columns)
            self.lines.append(f"{self.events:5}  {columns}{self.cells[0]:5}{came}\n")


def table(text, threads=None, first=0, last=2**64 - 1):
    import run

    run.Thread = Told  # (what a run makes its threads of)
    script = Script(text)
    if threads is None:
        threads = range(len(script.codes))
    head = "event  " + "".join(f"{f'thread {it}':26} | " for it in threads) + "clock\n"
    return head + "".join(Table(script, threads, first, last).lines)


if __name__ == "__main__":
    with open(sys.argv[1], encoding="latin-1") as file:  # (a comment may hold any bytes)
        text = file.read()
    threads = [int(it) for it in sys.argv[2].split(",")] if len(sys.argv) > 2 else None
    sys.stdout.write(table(text, threads, *map(int, sys.argv[3:])))

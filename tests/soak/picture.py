"""The picture of the steps of a script, as `itmsteps --svg` draws it: python3 picture.py FILE [THREAD,THREAD.. [FROM [TO]]]."""

import sys

import run
from norec import Exchange, Store
from script import Script
from table import Table, Told, number, shown

HEAD = """<style>
text{font-size:.6px}
path,circle{fill:none;stroke:#000;stroke-width:.07}
rect{stroke:#000;stroke-width:.06}
.ink{fill:#000}
.note{text-anchor:middle}
.page{fill:#fff;stroke:none}
.lane{stroke:#aaa}
.clear{fill:#fff;stroke:#aaa}
.held{fill:#aaa;stroke:#aaa}
.committed{fill:#7fc49b}
.readonly{fill:#d5efdf}
.cancelled{fill:#ddd;stroke-dasharray:.4 .1}
.conflict{fill:#fff;stroke-dasharray:.2 .15}
.broken{fill:#f3d9b0;stroke-dasharray:.2 .15}
.unfinished{fill:#eef;stroke-dasharray:.06 .15}
</style>
<defs>
<path id="look" d="M.5 2.6v.6"/>
<g id="moved"><path d="M.5 2.6v.6"/><circle cx=".5" cy="2.9" r=".38"/></g>
<circle id="load" cx=".5" cy="2.9" r=".22"/>
<path id="store" class="ink" d="M.27 2.67h.46v.46h-.46z"/>
<path id="take" class="ink" d="M.17 3.17h.66l-.33-.55z"/>
<path id="miss" d="M.17 3.17h.66l-.33-.55z"/>
<path id="free" class="ink" d="M.17 2.63h.66l-.33.55z"/>
</defs>
<rect class="page" x="-5" y="-1" width="100%" height="100%"/>
"""

LOOKS = {
    "committed": "committed",
    "readonly": "readonly",
    "cancelled": "cancelled",
    "conflict": "conflict",
    "full": "broken",
    "nomemory": "broken",
    "unfinished": "unfinished",
}


class Mark:
    """An event, and what came of it."""

    def __init__(self, number, thread, operation, found, clock, in_attempt, calls, kept, came, said):
        self.number, self.thread, self.operation, self.found, self.clock = number, thread, operation, found, clock
        self.in_attempt, self.calls, self.kept, self.came, self.said = in_attempt, calls, kept, came, said

    def is_look(self):
        return isinstance(self.operation, Exchange) or not self.operation.cell


class Marks(Table):
    """A run whose events are kept, where they are shown."""

    def __init__(self, *given):
        self.marks = []
        super().__init__(*given)

    def take(self, number_of, steps):
        while steps > 0 and (operation := self.next[number_of]):
            thread = self.threads[number_of]
            found, had = number(self.cells[operation.cell]), thread.attempt
            run.Run.take(self, number_of, 1)
            noted = thread.noted
            said = thread.came(operation).removeprefix(" | ").split(", ")[0]
            ends = [of[0] for what, of in noted if what == "over"]
            came = ends[0] if ends else noted[0][0] if noted else "goes on"
            calls = len(thread.attempt.calls) if thread.attempt else 0
            kept = next((of for what, of in noted if what == "restarted"), None)
            if number_of in self.columns and self.first <= self.events <= self.last:
                mark = Mark(self.events, number_of, operation, found, self.cells[0], bool(had), calls, kept, came, said)
                self.marks.append(mark)
            steps -= 1


class Picture:
    def __init__(self, columns, marks):
        self.columns, self.marks = columns, marks

    def earlier(self, i):
        """The events of the thread of an event before it, the last one first."""
        return ((at, it) for at, it in reversed([*enumerate(self.marks[:i])]) if it.thread == self.marks[i].thread)

    def begun(self, i):
        if not self.marks[i].in_attempt:
            return i
        return next((at for at, it in self.earlier(i) if it.came == "begun"), 0)

    def known(self, i):
        return next((it.clock for _, it in self.earlier(i) if it.is_look()), None)

    def back(self, i):
        best = i
        for at, it in self.earlier(i):
            if it.calls < self.marks[i].kept:
                break
            best = at
        return best

    def shape(self, i):
        mark = self.marks[i]
        match mark.operation:
            case Exchange(_, old, _):
                return "take" if mark.found == old else "miss"
            case Store(cell, _):
                return "store" if cell else "free"
        if mark.operation.cell:
            return "load"
        known = self.known(i)
        return "look" if known is None or known == mark.found else "moved"

    def bar(self, i, lane):
        mark = self.marks[i]
        if mark.came not in LOOKS:
            return ""
        start = self.begun(i)
        return (
            f'<g transform="translate({start} {lane}0)"><rect class="{LOOKS[mark.came]}" width="{i + 1 - start}" height="1.3" rx=".2"/>'
            f'<text x=".1" y=".85">{mark.said}</text></g>\n'
        )

    def restart(self, i, lane):
        if self.marks[i].came != "restarted":
            return ""
        return f'<g transform="translate(0 {lane}0)"><path d="M{i}.5 2.5V2.1H{self.back(i) + 1}v.4m-.15-.2l.15.2l.15-.2"/><text text-anchor="end" x="{i}.5" y="1.9">restarted</text></g>\n'

    def event(self, i, lane):
        mark = self.marks[i]
        text = shown(mark.operation, mark.found)
        return (
            f'<g transform="translate({i} {lane}0)"><use href="#{self.shape(i)}"/>'
            f'<text transform="translate(.3 3.6)rotate(90)">{text}</text></g>\n'
        )

    def clock(self, i):
        mark = self.marks[i]
        return (
            f'<g transform="translate({i} {len(self.columns)}0)"><rect class="{"held" if mark.clock % 2 else "clear"}" width="1" height="1"/>'
            f'<text class="note" x=".5" y=".7">{mark.clock}</text><text class="note" x=".5" y="2.2">{mark.number}</text></g>\n'
        )

    def lane(self, j):
        return (
            f'<g transform="translate(0 {j}0)"><text x="-4.7" y=".85">thread {self.columns[j]}</text>'
            f'<path class="lane" d="M0 2.9H{len(self.marks)}"/></g>\n'
        )

    def text(self):
        wide, lanes = len(self.marks) + 6, len(self.columns)
        parts = [
            f'<svg xmlns="http://www.w3.org/2000/svg" font-family="monospace" font-size="16" width="{wide}em" height="{lanes}4em"'
            f' viewBox="-5 -1 {wide} {lanes}4">\n{HEAD}'
        ]
        parts += [self.lane(j) for j in range(lanes)]
        for i, mark in enumerate(self.marks):
            lane = self.columns.index(mark.thread)
            parts += [self.bar(i, lane), self.event(i, lane), self.restart(i, lane), self.clock(i)]
        parts.append(
            f'<g transform="translate(0 {lanes}0)"><text x="-4.7" y=".7">clock</text><text x="-4.7" y="2.2">event</text></g>\n</svg>\n'
        )
        return "".join(parts)


def picture(text, threads=None, first=0, last=2**64 - 1):
    run.Thread = Told
    script = Script(text)
    columns = list(range(len(script.codes)) if threads is None else threads)
    return Picture(columns, Marks(script, columns, first, last).marks).text()


if __name__ == "__main__":
    with open(sys.argv[1], encoding="latin-1") as file:  # (a comment may hold any bytes)
        text = file.read()
    threads = [int(it) for it in sys.argv[2].split(",")] if len(sys.argv) > 2 else None
    sys.stdout.write(picture(text, threads, *map(int, sys.argv[3:])))

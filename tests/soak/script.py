"""What a script says."""

from entries import BEGIN, COMMIT
from plain import DEEPEST

ANY = float("inf")
EARLY_MEMORY, EARLY_THREADS = 65536, 32  # the most that a history of the first two versions tells of


def fields_of(text):
    """Of each line that says something its fields."""
    return list(filter(None, (line.split(";")[0].split() for line in text.split("\n"))))


def expanded(lines):
    """A thread's instructions, those of a `.rept` group as often as it says."""
    groups = [(1, [])]
    for name, *operands in lines:
        if name == ".rept":
            groups.append((int(operands[0]), []))
        elif name == ".endr":
            times, group = groups.pop()
            groups[-1][1].extend(times * group)
        else:
            groups[-1][1].append((name, *operands))
    return groups[0][1]


def item_of(thread, steps):
    """A schedule's item; all steps up to the thread's end where it does not say how many."""
    return int(thread), int(steps) if steps else ANY


class Code:
    """A thread's instructions, and where their groups end: of a begin its commit, of an `ifnz` its `else`, or its
    `endif` where it has none, and of an `else` its `endif`."""

    def __init__(self, lines):
        self.lines, self.ends, begun = expanded(lines), {}, []
        for number, (name, *_) in enumerate(self.lines):
            if name in ("else", "endif", COMMIT):
                self.ends[begun.pop()] = number
            if name in ("ifnz", "else", BEGIN):
                begun.append(number)


class Script:
    """The fields of a script that has no fault."""

    def __init__(self, text):
        self.arena, self.patience, self.retries, self.commits, self.depth = 0, 8, 100, (1 << 62) - 1, DEEPEST
        self.restarts = 0
        self.items, codes = [], []
        for name, *operands in fields_of(text):
            if name == ".thread":
                codes.append((int(operands[0]) if operands else 1, []))
            elif codes:
                codes[-1][1].append((name, *operands))
            else:
                self.directive(name, operands)
        self.codes = [code for count, lines in codes for code in count * [Code(lines)]]
        # the threads that take the next steps, and how many each
        self.items = self.items or [(thread, ANY) for thread in range(len(self.codes))]

    def version(self):
        """That of its histories: one of the first two where it can tell of them, the second where blocks may run again."""
        few = len(self.opening) <= EARLY_MEMORY and len(self.codes) <= EARLY_THREADS
        return 3 if self.depth != DEEPEST or not few else 2 if self.restarts else 1

    def directive(self, name, operands):
        if name == ".memory":
            self.opening = bytearray(int(operands[0]))
        elif name == ".init":
            at, data = int(operands[0]), bytes.fromhex(operands[1])
            self.opening[at : at + len(data)] = data
        elif name == ".schedule":
            self.items += [item_of(*item.replace("!", "x").split("x")) for item in operands]
        else:
            setattr(self, name[1:], int(operands[0]))


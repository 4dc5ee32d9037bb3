"""Random scripts for `itmrun`."""

import random

from instructions import Coder

WORD = 8

# of a script how many words its memory mostly has at most, the sizes of an arena, and how many words each thread mostly
# uses, where these are not all: few, so that threads meet; or a part for each thread, so that rounds of validation find
# nothing changed; or large parts, so that many words are read
SHAPES = [
    (12, [0, 1, 4, 8, 16, 40, 64], None),
    (40, [0, 1, 4, 8, 16, 40, 64], range(2, 13)),
    (160, [0, 64, 400, 1000], range(20, 80)),
]


class Maker:
    """The text of one script, the same one for the same seed, number and shape: how many threads it may have, and how
    often at most each of them runs its code."""

    def __init__(self, seed, number, threads=(1, 2, 2, 3, 3, 4, 4, 5, 6, 7, 8), times=1):
        self.random = random.Random(f"{seed} {number}")
        self.threads, self.times = threads, times
        most, arenas, self.parts = self.random.choices(SHAPES, [5, 4, 1])[0]
        words = self.random.randint(1, most)
        self.size = WORD * (words if not self.one_in(100) else self.random.choice([64, 512, 8192]))
        self.arena = self.random.choice(arenas) if not self.one_in(100) else 4096
        self.coder = Coder(self.random, self.size, self.arena)
        self.meets = self.one_in(5)

    def one_in(self, number):
        return self.random.randrange(number) == 0

    def limits(self):
        """Lines that may stand anywhere before the first thread."""
        lines = [f".arena {self.arena}"] if self.arena or self.one_in(2) else []
        # a thread that is patient outlasts those that hold the clock, so that its rounds compare what it has read
        patience = self.random.randint(9, 100) if self.one_in(3) or self.meets else self.random.randint(1, 8)
        lines += [f".patience {patience}"] if not self.one_in(20) else []
        lines += [f".retries {self.random.randint(0, 5)}"] if not self.one_in(20) else []
        restarts = self.random.choice([0, 1, 1, 2, 3, 20, 10000])
        lines += [f".restarts {restarts}"] if self.meets or self.one_in(3) else []
        lines += [f".depth {self.random.choice([1, 2, 3, 15, 16, 17, 64])}"] if self.one_in(8) else []
        return lines + ([f".commits {self.random.randint(1, 6)}"] if self.one_in(5) else [])

    def inits(self):
        for _ in range(self.random.randint(0, 3)):
            at = self.random.randrange(self.size)
            data = self.random.randbytes(self.random.randint(1, min(100, self.size - at))).hex()
            yield f".init {at} {data.upper() if self.one_in(2) else data}"

    def items(self, threads):
        """The items of a schedule; none where it is left out."""
        shape = self.random.randrange(10)
        ends = [f"{t}!" for t in self.random.sample(range(threads), threads)]
        if shape == 0:
            return []
        if shape == 1:
            return ends[: self.random.randint(1, threads)]
        # in longer turns a thread comes to commit, and others find what they have read changed
        items, most = [], self.random.randint(4, 10) if self.meets else 4
        for _ in range(self.random.randint(1, 60 * threads)):
            thread = self.random.randrange(threads)
            steps = self.random.randint(1, 30 if self.one_in(8) else most)
            items.append(f"{thread}!" if self.one_in(100) else f"{thread}x{steps}")
        # where the threads need not end, some stop in the middle of a commit
        return items + ends if shape < 6 else items[: self.random.randint(1, len(items))]

    def schedule(self, threads):
        items = self.items(threads)
        return [".schedule " + " ".join(items[n : n + 20]) for n in range(0, len(items), 20)]

    def head(self, threads):
        """The directives; the memory comes before what is laid into it."""
        lines = [*self.limits(), *self.schedule(threads)]
        self.random.shuffle(lines)
        at = self.random.randint(0, len(lines))
        before, after = lines[:at], [*lines[at:], *self.inits()]
        return [*before, f".memory {self.size}", *self.random.sample(after, len(after))]

    def spaced(self, line, wild):
        """The line with other spaces, a comment or another end, now and then or often."""
        if not self.one_in(2 if wild else 20):
            return line
        space = self.random.choice([" ", "  ", "\t", " \t "])
        comment = self.random.choice(["", " ; a comment", ";", "\t;.thread 7 \x00\xff;"])
        return self.random.choice(["", " ", "\t"]) + line.replace(" ", space) + comment + self.random.choice(["", "\r"])

    def again(self, code):
        """A thread's code as often as it is run."""
        return code if self.times == 1 else [f".rept {self.random.randint(1, self.times)}", *code, ".endr"]

    def text(self):
        threads = self.random.choice(self.threads)
        lines = self.head(threads)
        while threads:
            alike = self.random.randint(1, threads) if self.one_in(3) else 1
            lines += [".thread" if alike == 1 and self.one_in(2) else f".thread {alike}"]
            if self.parts:
                first, words = self.random.randrange(0, self.size, WORD), self.random.choice(self.parts)
                self.coder.use(range(first, min(first + WORD * words, self.size)))
            code = self.coder.meeting() if self.meets else self.coder.code(4 if threads < 4 else 3)
            lines += self.again(code)
            threads -= alike
        wild = self.one_in(10)
        text = "".join(self.spaced(line, wild) + "\n" for line in lines)
        return text[:-1] if self.one_in(10) and not text.endswith("\r\n") else text

"""A recording, as recorder/tell.c writes it."""

import collections

import machine

WORD = 8

Word = collections.namedtuple("Word", "address opening final kept")
Block = collections.namedtuple("Block", "address size caller")


class Fault(Exception):
    """The recording is none, or ends too early."""


class Attempt:
    """An attempt with the range in which its position is; `at` is the one that was chosen."""

    __slots__ = ("thread", "number", "low", "high", "outcome", "props", "ended", "lines", "calls", "at")

    def __init__(self, fields, ended):
        _, thread, number, low, high, self.outcome, self.props = fields
        self.thread, self.number, self.low, self.high = int(thread), int(number), int(low), int(high)
        self.ended = ended  # how many attempts ended before it
        self.lines, self.calls, self.at = [], [], None

    @property
    def commits(self):
        return self.outcome == "committed" or self.may_commit

    @property
    def may_commit(self):
        """Whether its commit was called and has not returned: it may be done or not."""
        return self.outcome == "committing"


class Recording:
    def __init__(self, path, told):
        told.step = lambda: f"{len(self.attempts)} attempts are read"
        self.words, self.blocks, self.attempts = [], [], []
        self.base = self.unfinished = None
        with open(path) as text:
            for line in text:
                self._read(line)
        if self.unfinished is None:
            raise Fault(f"{path} is cut")
        self.opening = b"".join(word.opening for word in self.words)
        self.final = b"".join(word.final for word in self.words)
        self.unasked = [WORD * number for number, word in enumerate(self.words) if not word.kept]

    def _read(self, line):
        fields = line.split()
        start = fields[0]
        if start == "call":
            one = self.attempts[-1]
            one.lines.append(line)
            call = machine.parse(fields)
            if call:
                one.calls.append(call)
        elif start == "attempt":
            self.attempts.append(Attempt(fields, len(self.attempts)))
        elif start == "arena":
            self.attempts[-1].lines.append(line)
        elif start == "word":
            address, opening, final, kept = fields[1:]
            self.words.append(Word(int(address, 16), bytes.fromhex(opening), bytes.fromhex(final), kept == "1"))
        elif start == "block":
            self.blocks.append(Block(int(fields[1], 16), int(fields[2]), int(fields[3], 16)))
        elif start == "program":
            self.base = int(fields[1], 16)
        elif start == "unfinished":
            self.unfinished = int(fields[1])
        elif start not in ("end", "itm-recording"):
            raise Fault(f"a line that begins with `{start}`")

    def forget(self, numbers):
        """Asks no more for the last bytes of these words."""
        self.unasked += [WORD * number for number in numbers]

    def told_final(self, memory):
        """The last bytes as a history after this memory tells them: what was freed may have any bytes."""
        told = bytearray(self.final)
        for place in self.unasked:
            told[place : place + WORD] = memory[place : place + WORD]
        return told

    def ends_well(self, memory):
        """Whether the run may have left this memory, as far as it is known."""
        return bool(self.unfinished) or memory == self.final or memory == self.told_final(memory)

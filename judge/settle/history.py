"""Histories from attempts that have their positions. A history holds 65,536 bytes. A run that touched more is told in
pieces: each begins with the bytes that the one before it left, and has the words that its own attempts touched."""

import bisect
import collections

import machine
from recording import WORD

MOST_WORDS = 65_536 // WORD
THREADS = 32

# the attempts in the order in which they ended; how many commits came before; the words that it tells, by number,
# or None for all; the memory before and after, and whether that is known
Piece = collections.namedtuple("Piece", "attempts first words opening final known")


class TooLarge(Exception):
    """One attempt touched more than a history holds."""


def _touched(one):
    words = set()
    for call in one.calls:
        for start, stop in machine.ranges(call):
            words.update(range(start // WORD, (stop - 1) // WORD + 1))
    return words


def _cut(attempts):
    """The attempts of each piece, and its words."""
    ordered, words = [], set()
    for one in sorted(attempts, key=lambda one: (one.at, one.commits, one.ended)):
        touched = _touched(one)
        if len(touched) > MOST_WORDS:
            raise TooLarge
        if len(words | touched) > MOST_WORDS:
            yield ordered, words
            ordered, words = [], set()
        ordered.append(one)
        words |= touched
    yield ordered, words


def pieces(recording, attempts, memory, known):
    """The histories of a run that left this memory; `known` tells whether its last bytes are."""
    final = recording.told_final(memory) if known else memory
    if len(recording.words) <= MOST_WORDS:
        words = None if recording.words else [0]
        return [Piece(attempts, 0, words, recording.opening, final, known)]
    told, memory, first = [], bytearray(recording.opening), 0
    for ordered, words in _cut(attempts):
        opening = bytes(memory)
        commits = [one for one in ordered if one.commits]
        for one in commits:
            machine.run(memory, one.calls)
        ordered.sort(key=lambda one: one.ended)
        told.append(Piece(ordered, first, sorted(words), opening, bytes(memory), True))
        first += len(commits)
    told[-1] = told[-1]._replace(final=final, known=known)
    return told


class Text:
    """The text of a piece; `heads` has the line of each attempt's head."""

    def __init__(self, piece):
        self.piece, self.heads = piece, []
        self.numbers = None if piece.words is None else {word: i for i, word in enumerate(piece.words)}

    def _bytes(self, memory):
        if self.numbers is None:
            return memory.hex()
        return "".join(memory[WORD * word : WORD * word + WORD].ljust(WORD, b"\0").hex() for word in self.numbers)

    def _place(self, place):
        return WORD * self.numbers[place // WORD] + place % WORD

    def _attempt(self, one):
        at, outcome = one.at - self.piece.first, "committed" if one.may_commit else one.outcome
        yield f"attempt {one.thread % THREADS} {one.number} {at} {outcome} {one.props}\n"
        if self.numbers is None:
            yield from map(machine.in_history, one.lines)
        else:
            yield one.lines[0]
            yield from (machine.in_history(machine.moved(line, self._place)) for line in one.lines[1:])
        yield "end\n"

    def write(self, path):
        piece, line = self.piece, 3
        commits = sum(one.commits for one in piece.attempts)
        with open(path, "w") as text:
            text.write(f"itm-history 1\nmemory {self._bytes(piece.opening)}\n")
            for one in piece.attempts:
                self.heads.append(line)
                text.writelines(self._attempt(one))
                line += len(one.lines) + 2
            if not piece.known:
                text.write(f"attempt 0 1 {commits} unfinished -\narena -\nend\n")
            text.write(f"final {2 * commits + (not piece.known)} {self._bytes(piece.final)}\n")

    def at_line(self, line):
        """The attempt that has this line, and which of its lines it is: 0 is its head."""
        i = bisect.bisect_right(self.heads, line) - 1
        if i < 0 or line > self.heads[i] + len(self.piece.attempts[i].lines):
            return None, None
        return self.piece.attempts[i], line - self.heads[i]

"""Each proper beginning of a worked history through `check`: it is cut in its last line, or in the next one where it ends
with a line feed."""

import collections

from driver import made
from worked import expect


def cuts(setup, worked):
    """How many of them there are."""
    history = worked.ample[0]
    for length in range(len(history)):
        text = history[:length]
        line = text.count(b"\n") + 1
        answer = made(setup.program, "check", text)
        expect(answer == (b"", f"itmrun: line {line}: cut\n".encode(), 2), "of", length, "bytes the answer is", answer)
    return collections.Counter(cut=len(history))

"""Scripts through `threads` with each allocation refused in turn, it alone and it with all that come after it, and each
thread.

A run in which something was refused ends with `itmrun: no memory` or `itmrun: no thread` and nothing written, or with a
history that fits the script, where threads may have found no memory. Which thread an allocation is of differs from run to
run, and so does how many there are.
"""

import collections

from run import STARVED
from threads import run_of
from worked import NO_MEMORY, NO_THREAD, expect, places, refusing

TURNS = 2  # runs for each allocation


def kind(program, script, answer):
    """What an answer is. It may be whole: a reader that gets no larger buffer may do with the one that it has."""
    if answer == NO_MEMORY:
        return "no memory"
    if answer == NO_THREAD:
        return "no thread"
    _, threads, _ = run_of(program, script, answer)
    return "a thread found no memory" if any(it.end == STARVED for it in threads) else "whole"


def threads(setup, worked):
    """How often each kind of answer came of a script."""
    counts = collections.Counter()
    if worked.has_fault:
        return counts
    script = worked.script()
    for later in ({}, {"REFUSE_LATER": 1}):
        for number in places(setup, worked.text):
            answers = [refusing(setup, "threads", worked.text, REFUSE=number, **later) for _ in range(TURNS)]
            counts.update(kind(setup.program, script, answer) for answer, refused in answers if refused)
            if not any(refused for _, refused in answers):
                break
    for number in range(1, len(script.codes) + 1):
        answer, refused = refusing(setup, "threads", worked.text, REFUSE_THREAD=number)
        expect(refused and answer == NO_THREAD, "without thread", number, "the answer is", answer)
        counts["no thread"] += 1
    return counts

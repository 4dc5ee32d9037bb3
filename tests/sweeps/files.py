"""Texts through each command with each read and each write failing in turn, and with one byte moved by each.

After a read that failed nothing is written, and after a write that failed, or took nothing, a beginning of the text, and
not all of it.
"""

import collections

from driver import made
from worked import each, expect, refusing

READING, WRITING = ((f"itmrun: {what} failed\n".encode(), 5) for what in ("reading", "writing"))
BYTEWISE = "lost_update"  # the script of which each byte is lost in turn


def failing(setup, command, text, ample, **how):
    """The kinds of answers where something fails."""
    counts = collections.Counter()
    for number, answer in each(setup, command, text, "REFUSE_READ", **how):
        expect(answer == (b"", *READING), command, "read", number, "failed: the answer is", answer)
        counts["a read failed"] += 1
    for name, kind in (("REFUSE_WRITE", "failed"), ("TAKE_NOTHING", "took nothing")):
        for number, (output, *rest) in each(setup, command, text, name, **how):
            begins = ample is None or ample[0].startswith(output) and output != ample[0]
            expect(begins and tuple(rest) == WRITING, command, "write", number, kind + ": the answer is", output, *rest)
            counts["a write " + kind] += 1
    for number, (output, errors, status) in each(setup, command, text, "REFUSE_ERROR", **how):
        begins = ample is None or ample[0] == output and ample[1].startswith(errors) and errors != ample[1]
        expect(begins and status == 5, command, "error", number, "failed: the answer is", output, errors, status)
        counts["the errors failed"] += 1
    return counts


def commanded(setup, command, text, bytewise):
    """Of one text and command. What threads answer may differ from run to run."""
    ample = made(setup.program, command, text)
    counts = failing(setup, command, text, None if command == "threads" else ample)
    single, _ = refusing(setup, command, text, ONE_BYTE=1)
    expect(command == "threads" or single == ample, command, "byte by byte answers", single, "in place of", ample)
    counts["byte by byte"] += 1
    if bytewise and command != "threads":
        counts += failing(setup, command, text, ample, ONE_BYTE=1)
    return counts


def files(setup, worked):
    """Of a script and its history."""
    texts = {"sched": worked.text, "asm": worked.text, "threads": worked.text, "check": worked.ample[0]}
    bytewise = worked.name == BYTEWISE
    return sum((commanded(setup, *it, bytewise) for it in texts.items()), collections.Counter())

"""What a checker of histories has to answer to a text: whether it is a history and, if so, whether it is legal."""

import collections
import re

from entries import (
    ABORT, ASKS, BEGIN, COMMIT, COPIES, FILLS, INNER, LOADS, LOG_BYTES, LOGS, MODE, NO_ID, ON_COMMIT, ON_UNDO, OUTER,
    READS, SERIAL, WRITTEN,
)  # fmt: skip
from history import OUTCOMES, SOME_PROPS, any_of
from plain import DEEPEST, WORD, Machine

# what is wrong with a text that is no history, and with a history that is not legal
FAULTS = HEADER, LINE, SIZE, CUT = "bad header", "bad line", "bad size", "cut"
KINDS = POSITION, AT, REPLY, SHAPE, RAN, FINAL = "position", "at", "reply", "shape", "ran", "final"

Verdict = collections.namedtuple("Verdict", "row kind")
LEGAL = Verdict(0, "legal")
EVERY = (LEGAL.kind, *KINDS, LINE, SIZE, CUT)  # those of a text that has a version

# `again` are the bytes from which the block of a begin ran again; none where it did not
Call = collections.namedtuple("Call", "row values reply again")
Attempt = collections.namedtuple("Attempt", "row thread nth at outcome props arena calls ran")
History = collections.namedtuple("History", "version depth memory attempts row clock final")
VERSIONS = {"itm-history 1": 1, "itm-history 2": 2, "itm-history 3": 3}


class Found(Exception):
    """The first thing that is wrong."""


def need(holds, row, kind):
    if not holds:
        raise Found(Verdict(row, kind))


# lines

# of a field the pattern, the value, and whether a value is within its limits
Form = collections.namedtuple("Form", "pattern value fits")


def word(pattern):
    return Form(pattern, str, lambda _: True)


def number(least=0, most=(1 << 64) - 1):
    # 21 digits show that a number is beyond every limit
    return Form("0|[1-9][0-9]*", lambda digits: int(digits[:21]), lambda value: least <= value <= most)


def data(least, most, step=1):
    return Form("(?:[0-9a-f]{2})+", bytes.fromhex, lambda value: len(value) in range(least, most + 1, step))


N, FUNCTION, PROPS = number(), number(most=(1 << 32) - 1), word(SOME_PROPS)
ARENA = [[word("-")], [data(1, 4096)]]
OK, CODE, REFUSED = [word("ok")], [word("code"), number(most=255)], [word("refused"), number(1, 8)]

# of each call its operands and its reply
CALLS = {
    BEGIN: ([PROPS], CODE),
    COMMIT: ([], OK),
    ABORT: ([word(any_of(map(re.escape, (INNER, OUTER))))], CODE),
    MODE: ([word(SERIAL)], OK),
    ASKS: ([], CODE),
    ON_COMMIT: ([FUNCTION, word(NO_ID), N], OK),
    ON_UNDO: ([FUNCTION, N], OK),
    LOG_BYTES: ([N, N], OK),
    **{name: ([N], [data(size, size)]) for name, size in {**READS, **LOADS}.items()},
    **{name: ([N, data(size, size)], OK) for name, size in WRITTEN.items()},
    **{name: ([N], OK) for name in LOGS},
    **{name: ([N, N, N], OK) for name in COPIES},
    **{name: ([N, number(most=255), N], OK) for name in FILLS},
}


def lines(thread, memory):
    """By their first word the forms that the fields of lines may have, where these are the last thread and the largest memory."""
    return {
        "depth": [[number(1, 64)]],
        "memory": [[data(WORD, memory, WORD)]],
        "attempt": [[number(most=thread), number(1, 10001), N, word(any_of([*OUTCOMES, "nomemory"])), PROPS]],
        "arena": ARENA,
        "restart": ARENA,
        "undone": [[FUNCTION, N]],
        "ran": [[word("commit|undo"), FUNCTION, N]],
        "end": [[]],
        "final": [[N, data(WORD, memory, WORD)]],
    }


LINES = {1: lines(31, 1 << 16), 2: lines(31, 1 << 16), 3: lines(63, 1 << 20)}  # of each version


def forms_of(version, start, fields):
    """The forms that the fields of a line with this first word may have."""
    if start != "call":
        return LINES[version].get(start, [])
    if not fields or fields[0] not in CALLS:
        return []
    operands, reply = CALLS[fields[0]]
    return [[word(re.escape(fields[0])), *operands, word("="), *some] for some in (reply, REFUSED)]


def has(fields, forms):
    return len(fields) == len(forms) and all(re.fullmatch(it.pattern, field) for it, field in zip(forms, fields))


class Reader:
    """The lines of a text that are not read yet."""

    def __init__(self, text):
        # what stands after the last line feed is no line
        *self.lines, self.rest = text.decode("latin-1").split("\n")
        self.row = 0  # of the line that was read last

    def line(self):
        self.row += 1
        need(self.row <= len(self.lines), self.row, CUT)
        return self.lines[self.row - 1]

    def first(self):
        """The version that the first line tells."""
        self.version = VERSIONS.get(self.line())
        need(self.version, self.row, HEADER)
        return self.version

    def next(self, *starts):
        """The first word of the next line, which has to be one of these, and the values of its other fields."""
        start, *fields = self.line().split(" ")
        forms = next((it for it in forms_of(self.version, start, fields) if has(fields, it)), None)
        need(start in starts and forms is not None, self.row, LINE)
        values = [form.value(field) for form, field in zip(forms, fields)]
        need(all(form.fits(value) for form, value in zip(forms, values)), self.row, SIZE)
        return start, [b"" if start in ("arena", "restart") and it == "-" else it for it in values]

    def attempt(self, *head):
        """The attempt whose head was read."""
        row, calls, ran = self.row, [], []
        arena = self.next("arena")[1][0]
        start, values = self.next("call", "ran", "end")
        while start == "call":
            body, reply = self.lines[self.row - 1].split(" = ")
            call, may = Call(self.row, values[: body.count(" ")], reply, None), ["call", "ran", "end"]
            begun = self.version > 1 and call.values[0] == BEGIN and reply == "code 5"
            start, values = self.next(*may, *["restart"] * begun)
            if start == "restart":
                need(len(values[0]) == len(arena), self.row, SIZE)
                call = call._replace(again=values[0])
                start, values = self.next(*may, "undone")
            while start == "undone":
                start, values = self.next(*may, "undone")
            calls.append(call)
        while start == "ran":
            ran.append(tuple(values))
            start, values = self.next("ran", "end")
        return Attempt(row, *head, arena, calls, ran)

    def end(self):
        need(self.row == len(self.lines), self.row + 1, LINE)
        need(not self.rest, self.row + 1, CUT)


def read(text):
    reader, attempts = Reader(text), []
    depth = reader.next("depth")[1][0] if reader.first() == 3 else DEEPEST
    memory = reader.next("memory")[1][0]
    start, values = reader.next("attempt", "final")
    while start == "attempt":
        attempts.append(reader.attempt(*values))
        start, values = reader.next("attempt", "final")
    clock, final = values
    need(len(final) == len(memory), reader.row, SIZE)
    history = History(reader.version, depth, memory, attempts, reader.row, clock, final)
    reader.end()
    return history


# verdicts


def positions(committed, others):
    """The committed attempts have to stand at as many positions from 0 on, and the others no later than at the end."""
    taken = set()
    for attempt in committed:
        need(attempt.at < len(committed) and attempt.at not in taken, attempt.row, POSITION)
        taken.add(attempt.at)
    for attempt in others:
        need(attempt.at <= len(committed), attempt.row, AT)


def replay(attempt, memory, depth):
    """The plain machine that an attempt leaves which runs alone on these bytes, as the history tells it."""
    machine = Machine(memory, attempt.arena, depth)
    need(not machine.refusal((BEGIN, attempt.props)), attempt.row, SHAPE)
    machine.one((BEGIN, attempt.props))
    for call in attempt.calls:
        need(machine.blocks, attempt.row, SHAPE)
        need(machine.one(call.values) == call.reply, call.row, REPLY)
        if call.again is not None:
            need(not machine.irrevocable, attempt.row, SHAPE)
            machine.arena[:] = call.again
    need(has_shape(attempt.outcome, machine, memory), attempt.row, SHAPE)
    if attempt.outcome in ("conflict", "full", "nomemory"):
        machine.back_to_start()
    need(attempt.ran == machine.ran, attempt.row, RAN)
    return machine


def has_shape(outcome, machine, memory):
    """Whether an attempt that began on these bytes may have ended so where it stands."""
    if machine.blocks:
        return outcome == "unfinished" or outcome in ("conflict", "full", "nomemory") and not machine.irrevocable
    if machine.cancelled:
        return outcome == "cancelled"
    return outcome == "committed" or outcome == "readonly" and machine.memory == memory and not machine.irrevocable


def ends_well(history, memories, unfinished, irrevocable):
    """Whether the final line may stand after attempts that left these memories; it is given where those stand that are
    unfinished, and those of them that became irrevocable."""
    done = len(memories) - 1
    if history.clock == 2 * done:
        return history.final == memories[done] and not irrevocable
    return history.clock == 2 * done + 1 and done in unfinished and irrevocable in ([], [done])


def in_order(attempts):
    """The attempts as they are judged: those that committed by position, and then the others as they stand."""
    return sorted(attempts, key=lambda it: (False, it.at) if it.outcome == "committed" else (True, 0))


def check(history):
    """The plain machines that its attempts leave, by their rows; if the history is legal."""
    committed = [it for it in history.attempts if it.outcome == "committed"]
    others = [it for it in history.attempts if it.outcome != "committed"]
    positions(committed, others)
    memories, machines = [history.memory], {}
    for attempt in in_order(history.attempts):
        machines[attempt.row] = replay(attempt, memories[attempt.at], history.depth)
        if attempt.outcome == "committed":
            memories.append(bytes(machines[attempt.row].memory))
    unfinished = [(it.at, machines[it.row].irrevocable) for it in others if it.outcome == "unfinished"]
    irrevocable = [at for at, became in unfinished if became]
    need(ends_well(history, memories, [at for at, _ in unfinished], irrevocable), history.row, FINAL)
    return machines


def judge(text):
    """The verdict on a text."""
    try:
        check(read(text))
    except Found as found:
        return found.args[0]
    return LEGAL


def answer(verdict):
    """The output, the errors and the status that tell a verdict."""
    if verdict.kind in FAULTS:
        return b"", f"itmrun: line {verdict.row}: {verdict.kind}\n".encode(), 2
    if verdict == LEGAL:
        return b"legal\n", b"", 0
    return f"bad {verdict.row} {verdict.kind}\n".encode(), b"", 3

"""Random changes to the text of a history: some leave it legal, others make it illegal or no history."""

import random
import re

from entries import (
    ABORT, ASKS, BEGIN, CALLS, COMMIT, COPIES, FILLS, GOES, INNER, LOADS, LOGS, PROPS, READS, STORES, WRITES, spelled,
)  # fmt: skip
from history import OUTCOMES

LAST, FUNCTIONS = (1 << 64) - 1, (1 << 32) - 1
ENDS = [*OUTCOMES, "nomemory"]
STOPPED = ["conflict", "full", "nomemory", "unfinished"]
LAST_CALLS = {
    **dict.fromkeys(["committed", "readonly"], f"call {COMMIT} = ok\n"),
    **dict.fromkeys(["cancelled"], f"call {ABORT} {INNER} = code 24\n"),
    **dict.fromkeys(STOPPED, ""),
}

# where a pattern has a group, the group alone is changed
ATTEMPT, CALL, RAN_LINE, ANY_LINE = r"^attempt(?:.*\n)+?end\n", r"^call.*\n", r"^ran.*\n", r"^.*\n"
UNFINISHED = r"^attempt \d+ \d+ \d+ unfinished(?:.*\n)+?end\n"
THREAD, TRY, POSITION, OUTCOME, OUTER_PROPS = (rf"^attempt(?: [^ \n]+){{{n}}} ([^ \n]+)" for n in range(5))
REPLY, CODE, CLOCK = r"^call.* = (.+)$", r"^call.* = code (\d+)$", r"^final (\d+)"
MEMORY, ARENA, FINAL = r"^memory (.+)$", r"^arena (.+)$", r"^final \d+ (.+)$"
READ, WRITTEN = r"^call.* = ([0-9a-f]{2,})$", r"^call (?:_ITM_W\w+|st\d) \d+ ([0-9a-f]+) = ok$"
BYTES = [MEMORY, ARENA, FINAL, READ, WRITTEN]

# numbers, and values of theirs within a limit and beyond it
LIMITS = [
    (THREAD, [31, 32, 63, 64]),
    (TRY, [0, 1, 10001, 10002]),
    (POSITION, [LAST, LAST + 1]),
    (CODE, [255, 256]),
    (r"^call.* = refused (\d+)$", [0, 1, 8, 9]),
    (r"^ran \w+ (\d+)", [FUNCTIONS, FUNCTIONS + 1]),
    (r"^ran \w+ \d+ (\d+)", [LAST, LAST + 1]),
    (r"^call _ITM_addUser\w+ (\d+)", [FUNCTIONS, FUNCTIONS + 1]),
    (r"^call _ITM_memset\w+ \d+ (\d+)", [255, 256]),
    (r"^call \w+ (\d+)", [LAST, LAST + 1]),
    (r"^call.* (\d+) = (?:ok|refused)", [LAST, LAST + 1]),
    (CLOCK, [LAST, LAST + 1]),
]

REPLIES = ["ok", *(f"code {n}" for n in (0, 1, 2, 5, 9, 24)), *(f"refused {n}" for n in range(1, 9)), "00", 8 * "00"]
VERSIONS = [f"itm-history {n}" for n in (1, 2, 3)]
ALIKE = [list(names) for names in (READS, WRITES, LOGS, COPIES, FILLS, LOADS, STORES)]


class Mutator:
    """Changes histories, in the same way for the same seed and number."""

    def __init__(self, seed, number):
        self.random = random.Random(f"changes {seed} {number}")

    def texts(self, text):
        """Some texts that are one change or two away from this one."""
        for _ in range(self.random.randint(4, 6)):
            yield self.changed(self.changed(text) if self.one_in(2) else text)

    def changed(self, text):
        return self.made(text, CHANGES)

    def made(self, text, changes):
        """The text after one of these changes that leaves another one."""
        found = text
        while found == text:
            found = self.random.choice(changes)(self, text.decode("latin-1")).encode("latin-1")
        return found

    def one_in(self, number):
        return self.random.randrange(number) == 0

    def put(self, text, pattern, make):
        """The text with one match of the pattern, if there is any, replaced by what is made of it."""
        matches = list(re.finditer(pattern, text, re.MULTILINE))
        if not matches:
            return text
        match = self.random.choice(matches)
        group = match.lastindex or 0
        return text[: match.start(group)] + make(match[group]) + text[match.end(group) :]

    def put_one(self, text, pattern, values):
        return self.put(text, pattern, lambda _: str(self.random.choice(values)))

    def moved(self, digits, steps):
        """A number moved by one of these steps."""
        is_number = digits.isdecimal() and len(digits) < 30
        return str(max(int(digits) + self.random.choice(steps), 0)) if is_number else digits

    # lines

    def left_out(self, text):
        pattern = self.random.choice([ATTEMPT, UNFINISHED, CALL, CALL, RAN_LINE, RAN_LINE, ANY_LINE])
        return self.put(text, pattern, lambda _: "")

    def doubled(self, text):
        pattern = self.random.choice([ATTEMPT, UNFINISHED, CALL, RAN_LINE, RAN_LINE, ANY_LINE])
        return self.put(text, pattern, lambda it: 2 * it)

    def swapped(self, text):
        """Two attempts, or an action and the line after it, the one in the place of the other."""
        if self.one_in(2):
            pair = RAN_LINE + self.random.choice([".*\n", "ran.*\n"])
            return self.put(text, pair, lambda it: "".join(reversed(it.splitlines(keepends=True))))
        spans = [match.span() for match in re.finditer(ATTEMPT, text, re.MULTILINE)]
        if len(spans) < 2:
            return text
        (a, b), (c, d) = sorted(self.random.sample(spans, 2))
        return text[:a] + text[c:d] + text[b:c] + text[a:b] + text[d:]

    def new_attempt(self, text):
        """One more attempt, which does nothing but end, or become irrevocable."""
        at, outcome = self.random.randint(0, text.count(" committed ")), self.random.choice(ENDS)
        props = self.random.choice(["-", GOES, spelled(self.random.sample(PROPS, 2))])
        lines = f"attempt 0 1 {at} {outcome} {props}\narena -\n{LAST_CALLS[outcome]}end\n"
        return self.put(text, "^(?:attempt|final)", lambda it: lines + it)

    def waiting(self, text):
        """One more attempt that has not ended, or two, at the last positions; with them the clock may be odd."""
        lines, done = "", text.count(" committed ")
        for _ in range(self.random.randint(1, 2)):
            at, props = max(done - self.random.randint(0, 1), 0), self.random.choice(["-", GOES])
            lines += f"attempt 0 1 {at} unfinished {props}\narena -\nend\n"
        text = self.put(text, CLOCK, lambda it: self.moved(it, [0, 1, 1]))
        return self.put(text, "^final", lambda it: lines + it)

    def gone_on(self, text):
        return text + self.random.choice(["\n", "x\n", "end\n", "final 0 0000000000000000\n", " ", "end"])

    # fields

    def position(self, text):
        steps = [-1, 1] if not self.one_in(4) else [-9, 9, 1 << 40]
        return self.put(text, POSITION, lambda it: self.moved(it, steps))

    def above(self, text):
        """Of an attempt that is not committed the position is raised."""
        pattern = r"^attempt \d+ \d+ (\d+) (?!committed)"
        return self.put(text, pattern, lambda it: self.moved(it, [1, 2, 3]))

    def clock(self, text):
        return self.put(text, CLOCK, lambda it: self.moved(it, [-2, -1, 1, 2]))

    def outcome(self, text):
        return self.put_one(text, OUTCOME, ENDS)

    def stopped(self, text):
        """An attempt that ended in another way is told as one that stopped before its last call."""
        return self.put(text, ATTEMPT, lambda it: self.cut_short(it, STOPPED))

    def holding(self, text):
        """The same with an odd clock, as such an attempt may have it."""
        text = self.put(text, ATTEMPT, lambda it: self.cut_short(it, ["unfinished"]))
        return self.put(text, CLOCK, lambda it: self.moved(it, [-1, 1]))

    def cut_short(self, attempt, outcomes):
        lines = [line for line in attempt.split("\n") if not line.startswith("ran commit")]
        calls = [n for n, line in enumerate(lines) if line.startswith("call")]
        if calls:
            del lines[calls[-1]]
        return self.put_one("\n".join(lines), OUTCOME, outcomes)

    def props(self, text):
        pattern = self.random.choice([OUTER_PROPS, rf"^call {BEGIN} (\S+)"])
        some = self.random.sample(PROPS, self.random.randint(0, 3))
        return self.put(text, pattern, lambda _: "+".join(some) if some and self.one_in(3) else spelled(some))

    def reply(self, text):
        if self.one_in(2):
            return self.put_one(text, REPLY, REPLIES)
        # of the same kind
        kind, others = self.random.choice([
            (r"^call.* = (ok|refused \d|[0-9a-f]{2,})$", [f"refused {n}" for n in range(1, 9)]),
            (r"^call.* = (refused \d)$", ["ok"]),
            (CODE, [0, 1, 2, 5, 9, 24]),
        ])  # fmt: skip
        return self.put_one(text, kind, others)

    def name(self, text):
        """A call by another name, mostly one of the same kind, such as a read with another hint."""
        alike = self.random.choice(ALIKE) if not self.one_in(8) else sorted(CALLS)
        return self.put_one(text, rf"^call ({'|'.join(alike)})(?= )", alike)

    def new_call(self, text):
        """One more call that writes nothing."""
        line = self.random.choice([f"call {ASKS} = code 1\n", f"call {ASKS} = code 2\n", f"call {COMMIT} = ok\n"])
        return self.put(text, r"^(?:call|end)", lambda it: line + it)

    def action(self, text):
        """Another kind, function or argument of an action that ran, or one more."""
        kind = self.random.choice(["commit", "undo"])
        if self.one_in(3):
            return self.put(text, r"^(?:ran|end)", lambda it: f"ran {kind} 1 0\n{it}")
        if self.one_in(2):
            return self.put(text, r"^ran (\w+)", lambda _: kind)
        number = self.random.choice([r"^ran \w+ (\d+)", r"^ran.* (\d+)$"])
        return self.put(text, number, lambda it: self.moved(it, [-1, 1]))

    def limit(self, text):
        pattern, values = self.random.choice(LIMITS)
        return self.put_one(text, pattern, values)

    def other_number(self, text):
        """Another thread or try, about which a history says nothing."""
        pattern = self.random.choice([THREAD, TRY])
        return self.put_one(text, pattern, range(1, self.random.choice([32, 32, 64])))

    def leading_zero(self, text):
        return self.put(text, r"(?<= )\d+(?= |$)", lambda it: "0" + it)

    # bytes

    def digit(self, text):
        """One digit of some bytes is another one."""
        return self.put(text, self.random.choice(BYTES), self.turned)

    def turned(self, data):
        at = self.random.randrange(len(data))
        return data[:at] + self.random.choice("0123456789abcdef") + data[at + 1 :]

    def upper(self, text):
        # the last letter among the digits of some bytes
        return self.put(text, r"(?<= )[0-9a-f]*([a-f])[0-9]*(?= |$)", str.upper)

    def length(self, text):
        """Some bytes are half a byte, a byte or a word longer or shorter."""
        more = self.random.choice(["0", "00", "00", 16 * "0"])
        pattern = self.random.choice(BYTES)
        return self.put(text, pattern, lambda it: it + more if self.one_in(2) else it[: -len(more)])

    def largest(self, text):
        """The memory, or an arena, is as long as may be, or longer."""
        if self.one_in(2):
            arena = 2 * (4096 + self.random.randint(0, 1))
            return self.put(text, ARENA, lambda it: it.strip("-").ljust(arena, "0"))
        largest = 65536 if not self.one_in(4) else 1048576
        memory = 2 * (largest + self.random.choice([-8, 0, 1, 8]))
        for pattern in (MEMORY, FINAL):
            text = self.put(text, pattern, lambda it: it.ljust(memory, "0"))
        return text

    # characters

    def header(self, text):
        lines = [*VERSIONS, "itm-history 4", "itm-history 02", "itm-history 1 ", "itm-history", ""]
        return self.put_one(text, r"\A.*$", lines)

    def space(self, text):
        return self.put_one(text, " ", ["", "  ", "\t", " \n"])

    def line_end(self, text):
        return self.put_one(text, r"\n", ["", "\r\n", "\n\n", " \n"])

    def last_line_end(self, text):
        return text.removesuffix("\n")

    def cut(self, text):
        return text[: self.random.randrange(max(len(text), 1))]

    def cut_at_line(self, text):
        lines = text.splitlines(keepends=True)
        return "".join(lines[: self.random.randrange(max(len(lines), 1))])

    def character(self, text):
        at = self.random.randrange(max(len(text), 1))
        return text[:at] + chr(self.random.randrange(256)) + text[at + 1 :]


M = Mutator
CHANGES = [
    *2 * [M.left_out, M.doubled, M.swapped, M.position, M.above, M.clock, M.outcome, M.stopped, M.holding, M.props],
    *2 * [M.reply, M.name, M.new_call, M.new_attempt, M.action, M.limit, M.digit],
    M.waiting, M.gone_on, M.other_number, M.leading_zero, M.upper, M.length, M.largest,
    M.header, M.space, M.line_end, M.last_line_end, M.cut, M.cut_at_line, M.character,
]  # fmt: skip

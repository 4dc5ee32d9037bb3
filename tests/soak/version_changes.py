"""Random changes to histories of versions 2 and 3: to what they tell besides, and those of mutation.py."""

import re

from entries import ABORT, ASKS, BEGIN, GOES, INNER, MODE, SERIAL
from mutation import ANY_LINE, ARENA, CALL, CHANGES, FUNCTIONS, LAST, VERSIONS, Mutator
from versions import Teller

# where a pattern has a group, the group alone is changed
AGAIN_LINE, UNDONE_LINE, DEPTH_LINE = r"^restart.*\n", r"^undone.*\n", r"^depth.*\n"
BEGUN, HEAD = rf"^call {BEGIN} .* = code 5\n", r"^arena.*\n"
BYTES = r"^restart (.+)$"

# numbers, and values of theirs within a limit and beyond it
LIMITS = [
    (r"^depth (\d+)", [0, 1, 2, 16, 17, 64, 65, LAST, LAST + 1]),
    (r"^undone (\d+)", [FUNCTIONS, FUNCTIONS + 1]),
    (r"^undone \d+ (\d+)", [LAST, LAST + 1]),
]


class VersionMutator(Mutator):
    """Changes histories of each version."""

    def texts(self, text):
        """Those of a history, and texts that are up to two changes away from its telling in version 2 or 3."""
        yield from super().texts(text)
        teller = Teller(self.random, text)
        for version in (2, 3):
            for _ in range(self.random.randint(2, 3)):
                text = teller.text(version)
                for _ in range(self.random.choice([0, 1, 1, 1, 2])):
                    text = self.made(text, NEW_CHANGES if self.one_in(2) else CHANGES)
                yield text

    def version(self, text):
        """Another version, with what it has between its first line and the memory, or without that."""
        text = self.put_one(text, r"\A.*$", VERSIONS)
        text = self.put(text, DEPTH_LINE, lambda it: "" if self.one_in(2) else it)
        return self.put(text, r"^memory", lambda it: f"depth {self.random.choice([1, 16])}\n{it}" if self.one_in(2) else it)

    def depth(self, text):
        return self.put(text, r"^depth (\d+)", lambda it: self.moved(it, [-16, -1, 1, 48]))

    def new_again(self, text):
        """One more block that ran again, or a line of that where none can stand; from the bytes of the arena, or so many others."""
        place = self.random.choice([BEGUN, BEGUN, CALL, AGAIN_LINE, HEAD, ANY_LINE])
        arena = self.random.choice(re.findall(ARENA, text, re.MULTILINE) or ["-"])
        digits = arena if self.one_in(2) else self.random.choice(["-", "00", "ff" * (len(arena) // 2)])
        return self.put(text, place, lambda it: f"{it}restart {digits or '-'}\n")

    def new_undone(self, text):
        """One more action that had come to run in a block that ran again, or a line of that where none can stand."""
        place = self.random.choice([AGAIN_LINE, UNDONE_LINE, BEGUN, CALL, ANY_LINE])
        return self.put(text, place, lambda it: f"{it}undone {self.random.randint(0, 9)} 0\n")

    def new_line_left_out(self, text):
        return self.put(text, self.random.choice([AGAIN_LINE, UNDONE_LINE, BEGUN, DEPTH_LINE]), lambda _: "")

    def new_line_moved(self, text):
        """A line of a block that ran again, before the one above it or behind the one below it."""
        line = self.random.choice(["restart", "undone"])
        pair = self.random.choice([rf"^.*\n{line}.*\n", rf"^{line}.*\n.*\n"])
        return self.put(text, pair, lambda it: "".join(reversed(it.splitlines(keepends=True))))

    def other_begin(self, text):
        """Another answer of the begin whose block ran again, or another call in its place."""
        pattern = rf"{BEGUN[:-2]}(?=\nrestart)"
        others = [f"call {BEGIN} - = {reply}" for reply in ("refused 8", "code 9", "code 24", "code 4")]
        return self.put_one(text, pattern, [*others, f"call {ASKS} = code 5", f"call {ABORT} {INNER} = code 5"])

    def held(self, text):
        """What ran again was irrevocable: by its own begin, by that of a try, or by a call."""
        how = self.random.randrange(3)
        if how == 0:
            return self.put_one(text, rf"^call {BEGIN} (\S+) = code 5\nrestart", [GOES])
        if how == 1:
            return self.put_one(text, r"^attempt \d+ \d+ \d+ \w+ (\S+)\n(?=(?:[^e].*\n)*restart)", [GOES])
        return self.put(text, rf"{BEGUN}(?=restart)", lambda it: f"call {MODE} {SERIAL} = ok\n{it}")

    def other_bytes(self, text):
        """Other bytes from which a block ran again, or more or fewer of them."""
        if self.one_in(3):
            return self.put_one(text, BYTES, ["-", "00"])
        if self.one_in(3):
            return self.put(text, BYTES, lambda it: it.strip("-") + "00")
        return self.put(text, BYTES, lambda it: self.turned(it) if it != "-" else "00")

    def new_limit(self, text):
        pattern, values = self.random.choice(LIMITS)
        return self.put_one(text, pattern, values)


M = VersionMutator
NEW_CHANGES = [
    *2 * [M.new_again, M.held, M.other_bytes],
    M.version, M.depth, M.new_undone, M.new_line_left_out, M.new_line_moved, M.other_begin, M.new_limit,
]  # fmt: skip

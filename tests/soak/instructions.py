"""Random code for a thread of a script."""

from entries import (
    ABORT, ASKS, BEGIN, COMMIT, COPIES, FILLS, GOES, INNER, LOADS, LOG_BYTES, LOGS, MODE, NO_ID, NO_IRREVOCABLE,
    ON_COMMIT, ON_UNDO, OUTER, PROPS, READS, SERIAL, STORES, WRITES,
)  # fmt: skip

WORD, LAST = 8, (1 << 64) - 1
WITHIN = [name for name, copy in COPIES.items() if not copy.reads_arena and not copy.writes_arena]
INTO_ARENA = [name for name, copy in COPIES.items() if copy.writes_arena]

# registers that hold places of the memory, a place of the arena and a size, so long as nothing else is put into them
SHARED, OWN, SIZE = ("r5", "r6"), "r7", "r8"
KEPT, ALL = 5, 15  # registers for anything: most often the first ones, seldom any


class Coder:
    def __init__(self, random, size, arena):
        self.random, self.size, self.arena = random, size, arena
        self.use(range(size))

    def use(self, part):
        """Most places are in this part of the shared memory from now on, and most of these one of two words."""
        self.part, self.hot = part, self.random.choices(part[::WORD], k=2)

    def one_in(self, number):
        return self.random.randrange(number) == 0

    def upto(self, most):
        return self.random.randint(0, most)

    # operands

    def register(self):
        return f"r{self.upto(ALL if self.one_in(12) else KEPT - 1)}"

    def room_in(self, part, end, size):
        """A place for so many bytes that are in this part of what ends there, or begin in it, if they can."""
        lowest = min(part.start, end - size)
        return self.random.randint(lowest, max(lowest, part.stop - size))

    def place_in(self, part, end, size):
        """A place for so many bytes, which seldom leave what ends there, by a byte or by far."""
        if size > end or self.one_in(16):
            # the last two and some bytes more are no longer numbers of 64 bits
            return self.random.choice([max(end - size, 0) + 1, end, 1 << 63, LAST - 7, LAST])
        return self.room_in(part, end, size)

    def shared(self, size):
        if self.one_in(6):
            return self.random.choice(SHARED)
        hot = self.random.choice(self.hot)
        is_hot = hot + size <= self.size and not self.one_in(3)
        return hot if is_hot else self.place_in(self.part, self.size, size)

    def own(self, size):
        return OWN if self.one_in(8) else self.place_in(range(self.arena), self.arena, size)

    def size_upto(self, most):
        few = self.random.choice([0, 1, 2, 4, 8, 12, 33, 40, 64, 100])
        return SIZE if self.one_in(10) else min(few, most) if not self.one_in(30) else self.upto(most + 1)

    def number(self):
        return self.random.choice([0, 1, self.upto(9), self.upto(255), self.random.getrandbits(64), LAST])

    def props(self):
        some = [p for p in PROPS if self.one_in(16 if p == GOES else 7)]
        self.random.shuffle(some)
        return "+".join(some) or "-"

    # instructions that may stand anywhere

    def fill_register(self):
        a, b, c = self.register(), self.register(), self.register()
        bytes_of = self.random.randbytes(self.random.randint(1, 32)).hex()
        return self.random.choice([
            f"set {a} {self.number()}",
            f"bytes {a} {bytes_of.upper() if self.one_in(2) else bytes_of}",
            f"mov {a} {b}",
            f"{self.random.choice(['add', 'sub', 'and', 'ltu'])} {a} {b} {c}",
        ])  # fmt: skip

    def read(self):
        name, size = self.random.choice(list(READS.items()))
        return f"{name} {self.register()} {self.shared(size)}"

    def write(self):
        name, size = self.random.choice(list(WRITES.items()))
        return f"{name} {self.shared(size)} {self.register()}"

    def own_access(self):
        name, size = self.random.choice([*LOADS.items(), *STORES.items()])
        place, register = self.own(size), self.register()
        return f"{name} {register} {place}" if name in LOADS else f"{name} {place} {register}"

    def log(self):
        name, size = self.random.choice([*LOGS.items(), (LOG_BYTES, None)])
        if size is None:
            size = self.size_upto(self.arena)
            return f"{name} {self.own(0 if size == SIZE else size)} {size}"
        return f"{name} {self.own(size)}"

    def copy(self):
        name, copy = self.random.choice(list(COPIES.items()))
        size = self.size_upto(self.arena if copy.reads_arena or copy.writes_arena else self.size)
        bytes_of = 0 if size == SIZE else size
        to = (self.own if copy.writes_arena else self.shared)(bytes_of)
        source = (self.own if copy.reads_arena else self.shared)(bytes_of)
        return f"{name} {to} {source} {size}"

    def near_copy(self):
        """A copy within the shared memory to a place near by, so that its ranges mostly overlap."""
        size = self.random.randint(1, min(self.size, 100))
        to = self.room_in(self.part, self.size, size)
        source = min(max(0, to + self.random.randint(-12, 12)), self.size - size)
        may_overlap = not self.one_in(4)
        name = self.random.choice([it for it in WITHIN if COPIES[it].moves == may_overlap])
        return f"{name} {to} {source} {size}"

    # accesses to the same bytes again and again

    def touching(self, word, size):
        """A place for so many bytes, of which some are in the word at this place."""
        lowest, highest = max(0, word - size + 1), min(word + WORD - 1, self.size - size)
        return self.random.randint(lowest, highest) if lowest <= highest else word

    def read_at(self, word):
        name, size = self.random.choice(list(READS.items()))
        return f"{name} {self.register()} {self.touching(word, size)}"

    def write_at(self, word):
        name, size = self.random.choice([it for it in WRITES.items() if it[1] <= WORD or self.one_in(4)])
        return f"{name} {self.touching(word, size)} {self.register()}"

    def copy_at(self, word):
        """A copy of bytes of this word and beside it. Chunks of a long one mostly meet inside a word."""
        sizes = [size for size in (1, 5, 8, 16, 33, 35, 40, 57, 65, 71, 100, 150, 260, 390) if size <= self.size]
        size = self.random.choice(sizes)
        source = self.touching(word, size)
        if size <= self.arena and self.one_in(2):
            return f"{self.random.choice(INTO_ARENA)} {self.upto(self.arena - size)} {source} {size}"
        to = self.room_in(self.part, self.size, size)
        moves = abs(to - source) < size or self.one_in(2)
        return f"{self.random.choice([it for it in WITHIN if COPIES[it].moves == moves])} {to} {source} {size}"

    def accesses(self, word):
        """Accesses to this word and beside it, most of them reads."""
        makers = [self.read_at, self.write_at, self.copy_at]
        lines = [make(word) for make in self.random.choices(makers, [6, 2, 3], k=self.random.randint(1, 4))]
        # a word that is stored as it was: rounds of the others find nothing changed
        return lines + ([f"_ITM_RU8 r1 {word}", f"_ITM_WU8 {word} r1"] if self.one_in(5) else [])

    def again(self, inside):
        """Accesses to one word before a block, in it, where it may be cancelled, and after it."""
        word = self.random.choice(self.hot)
        ends = self.random.choice([[], [f"{ABORT} {INNER}"], self.ends_early(inside + 1)])
        block = [f"{BEGIN} {self.register()} {self.props()}", *self.accesses(word), *ends, COMMIT]
        return [*self.accesses(word), *(block if self.one_in(2) else []), *self.accesses(word)]

    def fill(self):
        size = self.size_upto(self.size)
        byte = self.register() if self.one_in(2) else self.number()
        return f"{self.random.choice(FILLS)} {self.shared(0 if size == SIZE else size)} {byte} {size}"

    def action(self):
        function, argument = self.random.choice([0, self.upto(9), (1 << 32) - 1]), self.number()
        argument = self.register() if self.one_in(2) else argument
        if self.one_in(2):
            return f"{ON_COMMIT} {function} {NO_ID} {argument}"
        return f"{ON_UNDO} {function} {argument}"

    def asks(self):
        return f"{ASKS} {self.register()}"

    def line(self):
        """An instruction that may stand inside a block and outside."""
        makers = [self.fill_register, self.read, self.write, self.own_access, self.log, self.copy, self.fill]
        makers += [self.near_copy, self.action, self.asks]
        arena = 3 if self.arena else 1
        return self.random.choices(makers, [4, 6, 6, arena, arena, 3, 1, 2, 3, 1])[0]()

    # groups

    def lines(self, most, inside=0):
        """Some lines and groups, within so many blocks."""
        found = []
        for _ in range(self.upto(most)):
            found += self.group(most, inside) if self.one_in(6) else [self.line()]
        return found

    def group(self, most, inside):
        in_block = ["block", "block", "kept", "kept", "again", "again"] if inside else []
        kind = self.random.choice(["ifnz", "rept", *in_block])
        if kind == "ifnz":
            other = ["else", *self.lines(most // 2, inside)] if self.one_in(2) else []
            return [f"ifnz {self.register()}", *self.lines(most // 2, inside), *other, "endif"]
        if kind == "rept":
            return [f".rept {self.upto(3)}", *self.lines(most // 3, inside), ".endr"]
        if kind == "again":
            return self.again(inside)
        return self.block(most // 2, inside) if kind == "block" else self.kept()

    def kept(self):
        """Bytes of the arena, mostly the first ones, that are logged and then written, so that a rollback shows."""
        place = self.upto(2) if self.one_in(3) else 0
        size, more = self.random.choice([1, 2, 4]), self.random.choice([1, 2, 4, 8])
        log = f"{LOG_BYTES} {place} {self.upto(8)}" if self.one_in(4) else f"_ITM_LU{size} {place}"
        return [log, f"st{more} {place} {self.register()}"]

    def ends_early(self, inside):
        """An abort, mostly where a shared byte is odd, or a call that makes the transaction irrevocable."""
        if self.one_in(3):
            return [f"{MODE} {SERIAL}", *(self.block(2, inside) if self.one_in(2) else [])]
        abort = f"{ABORT} {OUTER if self.one_in(3) else INNER}"
        if self.one_in(4):
            return [abort]
        byte, one = self.register(), self.register()
        odd = [f"_ITM_RU1 {byte} {self.random.choice(self.hot)}", f"set {one} 1", f"and {byte} {byte} {one}"]
        return [*odd, f"ifnz {byte}", *self.lines(1, inside), abort, *self.lines(1, inside), "endif"]

    def block(self, most, inside=0):
        answer = self.register()
        lines = [f"{BEGIN} {answer} {self.props()}"]
        if self.one_in(2):
            # shows in the final bytes if it is lost, and in its write whether a try had got past its begin before
            at = self.random.choice(self.hot)
            lines += [f"_ITM_RU8 r2 {at}", f"add r2 r2 {answer}", f"_ITM_WU8 {at} r2"]
        lines += self.lines(most, inside + 1)
        if self.one_in(4):
            lines += self.again(inside + 1)
        if self.one_in(3 if inside else 4):
            lines += self.ends_early(inside + 1) + self.lines(most // 2, inside + 1)
        return [*lines, COMMIT]

    def begin(self):
        """The begin of a block that mostly has no property."""
        return f"{BEGIN} {self.register()} {self.props() if self.one_in(5) else '-'}"

    def reading(self, inside):
        """A block that reads the same words as others write, after something that a rollback shows, and blocks within it."""
        lines = [self.begin()]
        makers = [self.read_at, self.write_at, self.copy_at, lambda _: self.action(), lambda _: self.read()]
        for _ in range(self.random.randint(2, 5)):
            lines += self.kept() if self.one_in(4) else []
            lines += [self.random.choices(makers, [6, 1, 1, 3, 3])[0](self.random.choice(self.hot))]
            if inside < 4 and self.one_in(6):
                lines += self.reading(inside + 1)
        ends = self.ends_early(inside + 1) if self.one_in(8) else []
        return [*lines, *ends, COMMIT]

    def within(self):
        """A block that reads mostly within blocks of its own, so that these may run again alone."""
        lines = [self.begin(), *(self.kept() if self.one_in(3) else [])]
        lines += [self.action()] if self.one_in(3) else []
        lines += [self.read()] if self.one_in(6) else []
        for _ in range(self.random.choice([1, 1, 1, 2, 3])):
            lines += self.reading(1)
        return [*lines, *(self.lines(1, 1) if self.one_in(3) else []), COMMIT]

    def deep(self):
        """About as many blocks in one another as may be open. The inner ones may be refused for two reasons."""
        depth = self.random.randint(14, 18)
        props = [self.random.choice(["-", NO_IRREVOCABLE]), *(depth - 1) * ["-"]]
        props[-2:] = self.random.choices(["-", GOES], k=2)
        begins = [line for it in props for line in (f"{BEGIN} {self.register()} {it}", *self.lines(1, 1))]
        ends = [line for _ in range(depth) for line in (*self.lines(1, 1), COMMIT)]
        return [*begins, *(self.ends_early(depth) if self.one_in(2) else []), *ends]

    def registers(self):
        # they differ from the start: a commit that stores what was there before disturbs nobody
        lines = [f"set r{n} {self.number()}" for n in range(KEPT)]
        lines += [f"set {it} {self.place_in(self.part, self.size, WORD)}" for it in SHARED]
        own, size = self.place_in(range(self.arena), self.arena, 1), self.upto(min(12, self.size))
        return lines + [f"set {OWN} {own}", f"set {SIZE} {size}"]

    def counter(self):
        """A short block that changes a word which others read."""
        word = self.random.choice(self.hot)
        return [f"{BEGIN} r1 -", "add r2 r2 r1", f"_ITM_WU8 {word} r2", COMMIT]

    def meeting(self):
        """Blocks that read within blocks of their own, and short ones that write what those have read."""
        makers = self.random.choices([self.within, self.counter], [1, 2], k=self.random.randint(3, 8))
        return [*self.registers(), *(line for make in makers for line in make())]

    def code(self, blocks):
        lines = self.registers()
        for _ in range(self.random.randint(0 if self.one_in(9) else 1, blocks)):
            block = self.deep() if self.one_in(40) else self.within() if self.one_in(8) else self.block(9)
            lines += self.lines(2) + ([f".rept {self.upto(3)}", *block, ".endr"] if self.one_in(8) else block)
        return lines + self.lines(1)

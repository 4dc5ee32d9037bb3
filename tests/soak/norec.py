"""A transaction of NOrec, one operation on a shared cell after another, as docs/SCRIPTS.md tells its steps: generators
yield each operation, and are sent what stood in the cell. Cell 0 is the sequence clock, cell 1 + n is word n."""

import collections

from entries import ABORT, BEGIN, COMMIT, COPIES, FILLS, READS, WRITES
from plain import WORD, Machine, chunks, goes, pieces

CLOCK = 0
BUSY, CONFLICT, FULL = "busy", "conflict", "full"

Load = collections.namedtuple("Load", "cell")
Store = collections.namedtuple("Store", "cell value")
Exchange = collections.namedtuple("Exchange", "cell old new")


class Over(Exception):
    """A try has ended at a call that is not answered: busy, in a conflict or full."""

    def __init__(self, why):
        self.why = why


class Again(Exception):
    """A call is not answered, and the innermost block runs again."""


def read_of(name, *values):
    """The shared bytes that a call reads."""
    if name in READS:
        return values[0], values[0] + READS[name]
    if name in COPIES and not COPIES[name].reads_arena:
        return values[1], values[1] + values[2]
    return 0, 0


def written_of(name, *values):
    """The shared bytes that a call writes."""
    if name in WRITES:
        return values[0], values[0] + WRITES[name]
    if name in FILLS or name in COPIES and not COPIES[name].writes_arena:
        return values[0], values[0] + values[2]
    return 0, 0


class Transaction:
    """A try of a block. Of the memory its machine has what the transaction knows: the words in the value log, and over
    them the bytes that it has written. Once it is irrevocable, these are the words that it has loaded or stored."""

    def __init__(self, script, arena):
        self.patience, self.commits = script.patience, script.commits
        self.machine = Machine(b"?" * len(script.opening), arena, script.depth)
        self.snapshot = None  # the clock's value
        self.log = {}  # the words that were read, in the order of first reading
        self.begun = []  # of each open block how many words were read before it
        self.restarts = script.restarts  # that are left
        self.rounds = 0  # that the call under way may still start
        self.counts = collections.Counter()

    # the clock

    def begin(self, props):
        yield from self.taken() if goes(BEGIN, [props]) else self.loaded()
        self.answered((BEGIN, props))

    def loaded(self):
        """Loads the clock until it is even."""
        for _ in range(self.patience):
            self.snapshot = yield Load(CLOCK)
            if self.snapshot % 2 == 0:
                return
        raise Over(BUSY)

    def taken(self):
        """Loads the clock until it is even and an exchange takes it."""
        for _ in range(self.patience):
            self.snapshot = yield Load(CLOCK)
            if self.snapshot % 2 == 0 and (yield from self.takes()):
                return
        raise Over(BUSY)

    def takes(self):
        """Whether an exchange takes the clock, unless as many have committed as may."""
        if self.snapshot // 2 >= self.commits:
            raise Over(FULL)
        return (yield Exchange(CLOCK, self.snapshot, self.snapshot + 1)) == self.snapshot

    def write_back(self):
        """Takes the clock, in rounds of validation where others have committed, and stores what was written."""
        while not (yield from self.takes()):
            yield from self.validated()
        for word, places in self.machine.written.items():
            yield from self.put(word, places)

    def freed(self):
        yield Store(CLOCK, self.snapshot + 2)

    def validated(self):
        """Rounds of validation until one finds the clock even, and at its end as it was: the new snapshot."""
        while self.rounds > 0:
            self.rounds -= 1
            self.counts["rounds"] += 1
            clock = yield Load(CLOCK)
            if clock % 2 == 0:
                is_same = yield from self.compared()
                if (yield Load(CLOCK)) == clock:
                    self.snapshot = clock
                    self.counts["rounds that gave a snapshot"] += 1
                    if not is_same:
                        raise Again
                    return
                self.counts["restarts that came to nothing"] += not is_same
        raise Over(CONFLICT)

    def compared(self):
        """Whether each word is as it was read, where the first one that is not lets the innermost block run again."""
        for place, (word, value) in enumerate(self.log.items()):
            if (yield Load(1 + word)) != value:
                if len(self.begun) == 1 or place < self.begun[-1] or not self.restarts:
                    raise Over(CONFLICT)
                return False
        return True

    def again(self):
        """The innermost block begins again, with what was read before it; what has run since its begin was first answered."""
        self.restarts -= 1
        self.counts["restarts"] += 1
        self.log = dict(list(self.log.items())[: self.begun[-1]])
        return self.machine.again()

    # words

    def lay(self, word, value, but):
        """Lays what was found of a word over what the machine has of it, but for these bytes."""
        for place, byte in enumerate(value, WORD * word):
            if place not in but:
                self.machine.memory[place] = byte

    def lay_logged(self, word):
        self.lay(word, self.log[word], self.machine.written.get(word, ()))

    def read(self, start, stop):
        """Reads these bytes, as a transaction that can be rolled back: a word that is in the log, or whose bytes here
        it has written, takes no step."""
        for place, end in pieces(start, stop):
            word = place // WORD
            if self.machine.written.get(word, frozenset()).issuperset(range(place, end)):
                continue
            if word in self.log:
                self.counts["words answered from the log"] += 1
                continue
            self.log[word] = yield from self.confirmed(word)
            self.lay_logged(word)

    def confirmed(self, word):
        """What stood in a word as the clock was the snapshot."""
        value = yield Load(1 + word)
        while (yield Load(CLOCK)) != self.snapshot:
            yield from self.validated()
            value = yield Load(1 + word)
        return value

    def load(self, start, stop):
        """Reads these bytes while it holds the clock."""
        for place, _ in pieces(start, stop):
            word = place // WORD
            self.lay(word, (yield Load(1 + word)), ())

    def store(self, start, stop):
        """Stores these bytes, which are in the machine's memory."""
        for place, end in pieces(start, stop):
            yield from self.put(place // WORD, range(place, end))

    def put(self, word, places):
        """Stores these bytes of a word, after a load where they are a part of it."""
        if len(places) < WORD:
            self.lay(word, (yield Load(1 + word)), places)
        yield Store(1 + word, bytes(self.machine.memory[WORD * word : WORD * word + WORD]))

    # calls

    def call(self, call):
        """The reply to a call."""
        self.rounds = self.patience
        if self.machine.refusal(call):
            return self.machine.one(call)
        return (yield from self.held(call) if self.machine.irrevocable else self.unheld(call))

    def answered(self, call):
        """The reply to a call for which all is read."""
        reply = self.machine.one(call)
        open_blocks = len(self.machine.blocks)
        self.begun = self.begun[:open_blocks] + (open_blocks - len(self.begun)) * [len(self.log)]
        return reply

    def is_last(self, call):
        """Whether a call is the commit of the outermost block."""
        return call[0] == COMMIT and len(self.machine.blocks) == 1

    def unheld(self, call):
        """A call of a transaction that can be rolled back: all that it reads is read before the machine does it."""
        commits = self.is_last(call) and self.machine.written
        if commits or goes(call[0], call[1:]):
            yield from self.write_back()
        if commits:
            yield from self.freed()
        for part in self.parts(call):
            yield from self.read(*read_of(*part))
        reply = self.answered(call)
        if call[0] == ABORT:
            for word in self.log:
                self.lay_logged(word)
        return reply

    def held(self, call):
        """A call of an irrevocable transaction, chunk by chunk."""
        if self.is_last(call):
            yield from self.freed()
        reply = "ok"
        for part in self.parts(call):
            yield from self.load(*read_of(*part))
            reply = self.machine.one(part)
            yield from self.store(*written_of(*part))
        return reply

    def parts(self, call):
        """The chunks of a copy or a fill as calls; any other call is the only one of its parts."""
        name, *values = call
        if name in COPIES:
            to, source, size = values
            down = source < to and self.machine.overlap(*call)
            return [(name, to + start, source + start, stop - start) for start, stop in chunks(size, down)]
        if name in FILLS:
            to, byte, size = values
            return [(name, to + start, byte, stop - start) for start, stop in chunks(size, False)]
        return [call]

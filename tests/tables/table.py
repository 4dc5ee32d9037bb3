"""A script of one thread after the other, which is written side by side with the history that plain lists foretell."""

from lists import SIZES, Lists, words

MOST = 65536  # instructions of a script

BEGIN, COMMIT = "_ITM_beginTransaction", "_ITM_commitTransaction"
CANCEL, CANCEL_ALL = "_ITM_abortTransaction userAbort", "_ITM_abortTransaction userAbort+outerAbort"
MODE = "_ITM_changeTransactionMode modeSerialIrrevocable"


class Case:
    """A script, and what the program is to write and to say."""

    def __init__(self, name, script, history, errors="", status=0):
        self.name, self.script, self.history = name, script, history
        self.errors, self.status = errors, status


def size_of(name):
    """The bytes of an entry point's type."""
    return SIZES[next(kind for kind in sorted(SIZES, key=len, reverse=True) if name.endswith(kind))]


def chunks(size, is_from_above):
    """Where the pieces of 32 bytes begin in which so many are copied or filled, each with its size."""
    for done in range(0, size, 32):
        part = min(32, size - done)
        yield size - done - part if is_from_above else done, part


class Table:
    """What a thread does, call by call; `case` then gives the script and its history."""

    def __init__(self, memory, arena=0):
        self.opening, self.size = bytes(memory), arena
        self.lists = Lists(memory, bytes(arena))
        self.head = []  # further directives
        self.code = [".thread"]  # lines
        self.more = []  # of another thread
        self.attempts = []  # the lines of the attempts that have ended
        self.calls = None  # the lines of the one that is open
        self.thread, self.commits = 0, 0
        self.gave_up = []
        self.events = 0  # that the thread has taken
        self.logged = set()  # words that the open transaction has read from the memory
        self.opener, self.closer = [], []  # code that stands at each end of an outermost block

    # ## Calls

    def line(self, instruction, reply, body=None):
        """An instruction, and the line of its call, which is told of one in a block."""
        self.code.append(instruction)
        if self.calls is not None:
            self.calls.append(f"call {body or instruction} = {reply}")

    def begin(self, props="-"):
        before, was, written = len(self.lists.blocks), self.lists.irrevocable, self.lists.written
        reply = self.lists.begin(props)
        self.line(f"{BEGIN} r0 {props}", reply, f"{BEGIN} {props}")
        if reply != "code 5":
            self.code.append(COMMIT)  # a refused begin passes over its block
        elif before == 0:
            self.calls, self.props, self.at, self.logged = [], props, self.commits, set()
            self.own = bytes(self.lists.arena)
            self.events += 2 if self.lists.irrevocable else 1
            self.code += self.opener
        elif self.lists.irrevocable and not was:
            self.events += self.steps_of(written) + 1

    def closes(self, depth):
        """The code that closes so many blocks."""
        self.code += [COMMIT] * (depth - 1) + (self.closer if depth == len(self.lists.blocks) else []) + [COMMIT]

    def commit(self):
        self.calls.append(f"call {COMMIT} = ok")
        self.closes(1)
        irrevocable = self.lists.irrevocable
        written = self.lists.written
        self.lists.commit()
        if not self.lists.blocks:
            if irrevocable:
                self.events += 1
            elif written:
                self.events += self.steps_of(written) + 2
            if irrevocable or written:
                self.ended("committed")
                self.commits += 1
            else:
                self.ended("readonly")

    def cancel(self, outer=False):
        blocks = len(self.lists.blocks)
        self.code.append(CANCEL_ALL if outer else CANCEL)
        if blocks == 0:
            return
        closed = blocks if outer else 1
        at = len(self.code)
        self.closes(closed)
        reply = self.lists.cancel(outer)
        self.calls.append(f"call {self.code[at - 1]} = {reply}")
        if reply != "code 24":
            del self.code[at:]
        elif not self.lists.blocks:
            self.ended("cancelled")

    def mode(self):
        was, written = self.lists.irrevocable, self.lists.written
        reply = self.lists.mode() if self.lists.blocks else "refused 1"
        self.line(MODE, reply)
        if reply == "ok" and not was:
            self.events += self.steps_of(written) + 1

    def in_transaction(self):
        self.line("_ITM_inTransaction r1", self.lists.in_transaction(), "_ITM_inTransaction")

    def read(self, name, place):
        size = size_of(name)
        reply = self.lists.read(place, size)
        self.line(f"{name} r2 {place}", reply, f"{name} {place}")
        if "refused" not in reply:
            self.events += self.steps_of_read(place, size)

    def write(self, name, place, new):
        self.code.append(f"bytes r1 {new.hex()}")
        reply = self.lists.write(place, new)
        self.line(f"{name} {place} r1", reply, f"{name} {place} {new.hex()}")
        if self.lists.irrevocable and reply == "ok":
            self.stores(place, len(new))

    def fill(self, name, place, byte, size):
        reply = self.lists.fill(place, byte, size)
        self.code.append(f"{name} {place} {byte} {size}")
        self.calls.append(f"call {name} {place} {byte % 256} {size} = {reply}")
        if self.lists.irrevocable and reply == "ok":
            for at, part in chunks(size, False):
                self.stores(place + at, part)

    def copy(self, name, to, start, size):
        reply = self.lists.copy(name, to, start, size)
        self.line(f"{name} {to} {start} {size}", reply)
        if self.lists.irrevocable and reply == "ok":
            is_read, is_written = "Rn" not in name, not name.endswith("n")
            for at, part in chunks(size, is_read and is_written and start < to < start + size):
                if is_read:
                    self.events += len(words(start + at, part))
                if is_written:
                    self.stores(to + at, part)

    def log(self, name, place):
        self.line(f"{name} {place}", self.lists.log(place, size_of(name)))

    def log_bytes(self, place, size):
        self.line(f"_ITM_LB {place} {size}", self.lists.log(place, size))

    def load(self, place, size):
        self.line(f"ld{size} r2 {place}", self.lists.load(place, size), f"ld{size} {place}")

    def save(self, place, new):
        size = len(new)
        self.code.append(f"bytes r1 {new.hex()}")
        self.line(f"st{size} {place} r1", self.lists.save(place, new), f"st{size} {place} {new.hex()}")

    def on_commit(self, fun, arg):
        instruction = f"_ITM_addUserCommitAction {fun} _ITM_noTransactionId {arg}"
        self.line(instruction, self.lists.on_commit(f"{fun} {arg}") if self.lists.blocks else "refused 1")

    def on_undo(self, fun, arg):
        instruction = f"_ITM_addUserUndoAction {fun} {arg}"
        self.line(instruction, self.lists.on_undo(f"{fun} {arg}") if self.lists.blocks else "refused 1")

    # ## Events

    @staticmethod
    def steps_of(written):
        """The events that store these bytes: one for a whole word, and two for a part of one."""
        return sum(1 if len(places) == 8 else 2 for places in written.values())

    def steps_of_read(self, place, size):
        if self.lists.irrevocable:
            return len(words(place, size))
        read = set()
        for word in range(place // 8, (place + size + 7) // 8):
            wanted = range(max(place, 8 * word), min(place + size, 8 * word + 8))
            if not self.lists.written.get(word, frozenset()).issuperset(wanted):
                read.add(word)
        new = read - self.logged
        self.logged |= new
        return 2 * len(new)

    def stores(self, place, size):
        """In an irrevocable transaction these bytes are stored."""
        self.events += sum(1 if part == 8 else 2 for part in words(place, size))

    # ## Attempts

    def ended(self, outcome):
        self.tell(f"{self.thread} 1 {self.at} {outcome} {self.props}", self.own, self.calls + self.lists.ran)
        self.calls = None

    def tell(self, head, own, lines):
        self.attempts += [f"attempt {head}", f"arena {own.hex() or '-'}", *lines, "end"]

    def lost(self, outcome):
        """The attempt ends, with no answer to its last call: every block is rolled back."""
        self.closes(len(self.lists.blocks))
        while self.lists.blocks:
            self.lists.back()
        self.ended(outcome)

    def next_thread(self):
        """The code that follows is another thread's."""
        self.code.append(".thread")
        self.thread += 1
        self.lists.arena[:] = bytes(self.size)

    # ## Texts

    def is_full(self, more):
        """Whether there is no room for so many more instructions."""
        return len(self.code) + more > MOST

    def script(self):
        head = [f".memory {len(self.opening)}", f".arena {self.size}", f".init 0 {self.opening.hex()}"]
        return "\n".join([*head, *self.head, *self.code, *self.more, ""])

    def history(self, clock):
        head = ["itm-history 1", f"memory {self.opening.hex()}"]
        return "\n".join([*head, *self.attempts, f"final {clock} {self.lists.memory.hex()}", ""])

    def exactly(self, name):
        """The script with as many events as it needs; and with one event less, which is that of the last commit."""
        self.head.append(f".schedule 0x{self.events}")
        yield self.case(name)
        self.head[-1] = f".schedule 0x{self.events - 1}"
        head = max(number for number, line in enumerate(self.attempts) if line.startswith("attempt "))
        told = [line for line in self.attempts[head:] if not line.startswith("ran ")]
        self.attempts[head:] = [told[0].replace("committed", "unfinished"), *told[1:-2], "end"]
        yield Case(f"{name}, one event short", self.script(), self.history(2 * self.commits - 1))

    def case(self, name):
        errors = "".join(f"itmrun: thread {number} gave up\n" for number in self.gave_up)
        return Case(name, self.script(), self.history(2 * self.commits), errors, 4 if self.gave_up else 0)

"""The plain machine on the shared memory, and on a thread's own: what calls read, and what they leave.
docs/HISTORIES.md states it whole; the verdict is always that of `itmrun check`, and this machine only finds positions
and tells what should have been read."""

READ, WRITE, COPY, FILL, BEGIN, COMMIT, CANCEL, CANCEL_ALL = range(8)

SIZES = {"U1": 1, "U2": 2, "U4": 4, "U8": 8, "F": 4, "D": 8, "M64": 8, "CF": 8, "M128": 16, "CD": 16, "M256": 32}

_kinds = {
    "_ITM_beginTransaction": BEGIN,
    "_ITM_commitTransaction": COMMIT,
    "_ITM_abortTransaction": CANCEL,
}


def _kind_of(name):
    """The kind of an entry, or None of one that says nothing of the shared memory."""
    if name not in _kinds:
        known = (("_ITM_memset", FILL), ("_ITM_mem", COPY), ("_ITM_R", READ), ("_ITM_W", WRITE))
        _kinds[name] = next((kind for start, kind in known if name.startswith(start)), None)
    return _kinds[name]


def parse(fields):
    """A call's line, split in fields, as a tuple: its kind, then first place, end and bytes; None of other entries."""
    kind = _kind_of(fields[1])
    if kind is None:
        return None
    if kind == READ or kind == WRITE:
        place, data = int(fields[2]), bytes.fromhex(fields[4 if kind == READ else 3])
        return kind, place, place + len(data), data
    if kind == COPY or kind == FILL:
        to, source, size = map(int, fields[2:5])
        return kind, to, to + size, source
    if kind == CANCEL and fields[2].endswith("outerAbort"):
        return (CANCEL_ALL,)
    return (kind,)


def in_history(line):
    """A call's line as a history has it: of a copy without the bytes."""
    return f"{line[: line.index('=')]}= ok\n" if line.startswith("call _ITM_mem") else line


def split_copy(fields, reads):
    """A copy of which one side is left out, as the read or the writes of its bytes."""
    place, data = int(fields[3] if reads else fields[2]), bytes.fromhex(fields[6])
    for at, byte in enumerate(data, place):
        yield f"call _ITM_RU1 {at} = {byte:02x}\n" if reads else f"call _ITM_WU1 {at} {byte:02x} = ok\n"


def moved(line, to):
    """A call's line with each of its places where this function puts it."""
    fields = line.split(" ")
    kind = _kind_of(fields[1])
    for i in (2, 3) if kind == COPY else (2,) if kind in (READ, WRITE, FILL) else ():
        fields[i] = str(to(int(fields[i])))
    return " ".join(fields)


def ranges(call):
    """The bytes of the memory that a call reads or writes, from the first up to the end."""
    if call[0] <= FILL:
        yield call[1:3]
    if call[0] == COPY:
        yield call[3], call[3] + call[2] - call[1]


def roll_back(memory, undo, until=0):
    while len(undo) > until:
        start, was = undo.pop()
        memory[start : start + len(was)] = was


def _written(memory, call):
    """The bytes that a call writes."""
    kind, start, stop, what = call
    if kind == WRITE:
        return what
    if kind == COPY:
        return memory[what : what + stop - start]
    return bytes([what]) * (stop - start)


def run(memory, calls):
    """Runs an attempt up to the first read that does not fit. How to undo what it did, and how many calls fitted."""
    undo, blocks = [], [0]
    for done, call in enumerate(calls):
        kind = call[0]
        if kind == READ:
            if memory[call[1] : call[2]] != call[3]:
                return undo, done
        elif kind <= FILL:
            start, stop = call[1:3]
            undo.append((start, memory[start:stop]))
            memory[start:stop] = _written(memory, call)
        elif kind == BEGIN:
            blocks.append(len(undo))
        elif kind == COMMIT:
            blocks.pop()
        else:
            roll_back(memory, undo, blocks[0] if kind == CANCEL_ALL else blocks.pop())
    return undo, len(calls)


def fitting(memory, calls):
    """How many calls of an attempt fit, up to the first that does not. The memory stays."""
    undo, done = run(memory, calls)
    roll_back(memory, undo)
    return done


def fits(memory, calls):
    return fitting(memory, calls) == len(calls)


def commits(memory, calls):
    """Runs an attempt that fits and gives how to undo it, or None where it does not fit."""
    undo, done = run(memory, calls)
    if done == len(calls):
        return undo
    roll_back(memory, undo)
    return None


def _on_own(call):
    """The entry of a call's line, its place and its size, or None, if they are of the thread's own memory."""
    name, place, *rest = call.split()[1:]
    if name == "_ITM_LB":
        return "log", int(place), int(rest[0])
    if name.startswith("_ITM_L"):
        return "log", int(place), SIZES[name.removeprefix("_ITM_L")]
    if name[:2] in ("ld", "st"):
        return name[:2], int(place), int(name[2:])
    return name, place, None


def own_due(lines):
    """What the plain machine has of the thread's own memory at the last of these lines, which loads it."""
    arena = bytearray.fromhex(lines[0].split()[1])
    kept = [{}]  # of each open block what its logs keep
    for line in lines[1:-1]:
        name, place, size = _on_own(line)
        if name == "log":
            for at in range(place, place + size):
                kept[-1].setdefault(at, arena[at])
        elif name == "st":
            arena[place : place + size] = bytes.fromhex(line.split()[3])
        elif name == "_ITM_beginTransaction":
            kept.append({})
        elif name == "_ITM_commitTransaction":
            inner = kept.pop()
            kept[-1] = {**inner, **kept[-1]}
        elif name == "_ITM_abortTransaction":
            for at, byte in kept.pop().items():
                arena[at] = byte
    _, place, size = _on_own(lines[-1])
    return arena[place : place + size]

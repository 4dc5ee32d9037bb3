"""Long histories of many shapes, each of about so many bytes."""

from texts import BYTES, Shape, filled

ZERO, ARENA = 8 * b"00", 4096 * b"00"
START, WIDE = (b"itm-history 1\nmemory %s\n" % (words * ZERO) for words in (1, 8192))
SECOND, DEEP, VAST = b"itm-history 2\nmemory %s\n" % ZERO, *(
    b"itm-history 3\ndepth 64\nmemory %s\n" % (words * ZERO) for words in (1, 131072)
)
COMMITS, BEGINS = b"call _ITM_commitTransaction = ok\n", b"call _ITM_beginTransaction - = code 5\n"
ABORTS = b"call _ITM_abortTransaction userAbort = code 24\n"
WRITES, READS = b"call _ITM_WU8 0 %s = ok\n" % ZERO, b"call _ITM_RU8 0 = %s\n" % ZERO
FILL, MOVE = b"call _ITM_memsetW 0 0 65536 = ok\n", b"call _ITM_memmoveRtWt 1 0 65535 = ok\n"
LOGS, LOG = b"call _ITM_LB 0 4096 = ok\n", b"call _ITM_LU8 0 = ok\n"
AGAIN, AGAIN_SHORT, AGAIN_LONG = (BEGINS + b"restart %s\n" % arena for arena in (b"-", ZERO, ARENA))
LAST_WRITE = b"call _ITM_WU8 1048568 %s = ok\n" % ZERO
UNDONE, HELD = b"undone 1 2\n", b"call _ITM_changeTransactionMode modeSerialIrrevocable = ok\n"
UNDO, DONE = b"call _ITM_addUserUndoAction 1 2 = ok\n", b"call _ITM_addUserCommitAction 1 _ITM_noTransactionId 2 = ok\n"


def head(at, outcome, props=b"-", arena=b"-"):
    return b"attempt 0 1 %d %s %s\narena %s\n" % (at, outcome, props, arena)


def final(commits, words=1):
    return b"final %d %s\n" % (2 * commits, words * ZERO)


def tries(unit, outcome, arena=b"-", start=START, words=1):
    """Tries at position 0 that are not committed, with these calls each."""
    return lambda size: filled(size, head(0, outcome, arena=arena) + unit + b"end\n", start, final(0, words))


def within(unit, arena=b"-", start=START, words=1, first=b"", last=b""):
    """One try with these calls again and again."""
    return lambda size: filled(size, unit, start + head(0, b"unfinished", arena=arena) + first, last + b"end\n" + final(0, words))


def two(first, second, start=START):
    """The same of two units, one after the other, with half of the bytes each."""
    start, end = start + head(0, b"unfinished", arena=ARENA), b"end\n" + final(0)
    halves = (first, start, b""), (second, b"", end)
    return lambda size: (part for half in halves for part in filled(size // 2, *half))


def commits(calls, order, reads=b""):
    """Tries that commit, with these calls and a commit each, at positions in this order; and where there are such, then as
    many with these reads, at positions here and there."""

    def pieces(size):
        reader = reads and head(10**6, b"readonly") + reads + COMMITS + b"end\n"
        count = (size - 100) // len(head(10**6, b"committed") + calls + COMMITS + b"end\n" + reader)
        yield START
        for at in order(range(count)):
            yield head(at, b"committed") + calls + COMMITS + b"end\n"
        for at in range(count if reads else 0):
            yield head(at * 7919 % count, b"readonly") + reads + COMMITS + b"end\n"
        yield final(count)

    return pieces


def acted(action, kind, ends, outcome):
    """One try that registers actions, which all run."""

    def pieces(size):
        ran = b"ran %s 1 2\n" % kind
        count = size // len(action + ran)
        yield START + head(0, outcome)
        yield from filled(count * len(action), action)
        yield ends
        yield from filled(count * len(ran), ran)
        yield b"end\n" + final(outcome == b"committed")

    return pieces


def times(number, pieces):
    """So many times as many bytes."""
    return lambda size: pieces(int(number * size))


# blocks that ran again, and what else versions 2 and 3 have
VERSIONS = [
    Shape("tries with a block each that ran again", tries(AGAIN + COMMITS + COMMITS, b"readonly", start=SECOND)),
    Shape("blocks of one try that ran again", within(AGAIN + COMMITS, start=SECOND)),
    Shape("blocks that ran again and logged", within(AGAIN_SHORT + LOG + COMMITS, ZERO, SECOND)),
    Shape("cancelled blocks that ran again and logged", within(AGAIN_SHORT + LOG + ABORTS, ZERO, SECOND)),
    # 5,000 and 10,000 blocks
    Shape("blocks that ran again from long arenas", times(5.2, within(AGAIN_LONG + COMMITS, ARENA, SECOND))),
    Shape("tries and blocks that ran again from long arenas", times(5.2, tries(AGAIN_LONG, b"unfinished", ARENA, SECOND))),
    Shape("blocks that ran again after many logs", two(LOG, AGAIN_LONG + COMMITS, SECOND)),
    Shape("cancelled blocks that ran again and logged much", within(AGAIN_LONG + LOGS + ABORTS, ARENA, SECOND)),
    Shape("blocks within blocks that ran again", within(63 * AGAIN + 63 * COMMITS, start=DEEP)),
    Shape("cancelled blocks within blocks that ran again", within(63 * (AGAIN_SHORT + LOG) + 63 * ABORTS, ZERO, DEEP)),
    Shape("long arenas of blocks within blocks that ran again", within(63 * (AGAIN_LONG + LOG) + 63 * COMMITS, ARENA, DEEP)),
    Shape("actions of a block that ran again", within(UNDONE, start=SECOND, first=AGAIN)),
    Shape("readers of the largest memory", tries(READS + COMMITS, b"readonly", start=VAST, words=131072)),
    Shape("conflicts in the largest memory", tries(LAST_WRITE, b"conflict", start=VAST, words=131072)),
    Shape("a bad line behind blocks that ran again", within(AGAIN + COMMITS, start=SECOND, last=UNDONE), 2),
    Shape("a last block that cannot have run again", within(AGAIN + COMMITS, start=SECOND, last=HELD + AGAIN), 3),
]

# how they are answered by `check`
TEXTS = [
    Shape("commits", commits(WRITES, iter)),
    Shape("commits, the last one first", commits(WRITES, reversed)),
    Shape("commits that do nothing", commits(b"", iter)),
    Shape("commits, and readers at their positions", commits(WRITES, iter, READS)),
    Shape("readers at one position", tries(READS + COMMITS, b"readonly")),
    Shape("conflicts at one position", tries(WRITES, b"conflict")),
    Shape("empty tries at one position", tries(b"", b"unfinished")),
    Shape("long arenas", tries(b"", b"unfinished", ARENA)),
    Shape("reads of one try", within(READS)),
    Shape("writes of one try", within(WRITES)),
    Shape("long writes of one try", within(b"call _ITM_WM256 0 %s = ok\n" % (4 * ZERO), start=WIDE, words=8192)),
    Shape("refused calls", within(b"call _ITM_RU1 18446744073709551615 = refused 2\n")),
    Shape("calls that ask", within(b"call _ITM_inTransaction = code 1\n")),
    Shape("blocks within blocks", within(15 * BEGINS + 15 * COMMITS)),
    Shape("blocks within blocks that write", within(15 * (BEGINS + WRITES) + 15 * COMMITS)),
    Shape("cancelled blocks", within(BEGINS + WRITES + ABORTS)),
    Shape("cancelled blocks within blocks", within(15 * (BEGINS + WRITES) + 15 * ABORTS)),
    Shape("cancelled blocks after many writes", two(WRITES, BEGINS + WRITES + ABORTS)),
    Shape("blocks after many writes", two(WRITES, BEGINS + WRITES + COMMITS)),
    Shape("blocks after many actions", two(UNDO, BEGINS + UNDO + COMMITS)),
    Shape("accesses of the arena", within(b"call st8 0 %s = ok\ncall ld8 0 = %s\n" % (ZERO, ZERO), ARENA)),
    Shape("undo actions", acted(UNDO, b"undo", ABORTS, b"cancelled")),
    Shape("commit actions", acted(DONE, b"commit", COMMITS, b"committed")),
    Shape("a bad line at the end", lambda size: filled(size, READS, START + head(0, b"unfinished"), b"end\nend\n"), 2),
    Shape("no final line", lambda size: filled(size, head(0, b"unfinished") + b"end\n", START), 2),
    Shape("a wrong reply at the end", within(READS, last=b"call _ITM_RU1 0 = 01\n"), 3),
    Shape("one long line", lambda size: filled(size, BYTES, START), 2),
    Shape("one long number", lambda size: filled(size, b"9", START + b"final ", b" 00\n"), 2),
    Shape("one long text of digits", lambda size: filled(size, b"00", b"itm-history 1\nmemory ", b"\n"), 2),
    Shape("many fields", lambda size: filled(size, b" 0", START + b"attempt", b"\n"), 2),
    Shape("empty lines", lambda size: filled(size, b"\n", START), 2),
    *VERSIONS,
]

# Those whose calls touch many bytes each. The plain machine's logs have an entry for each 32 bytes that are logged, while a
# block is open that may go back, also where it has these bytes: so many bytes of memory for each byte of text.
WORKS = [
    Shape("fills of one try", within(FILL, start=WIDE, words=8192)),
    Shape("fills in blocks", within(BEGINS + FILL + COMMITS, start=WIDE, words=8192)),
    Shape("fills in cancelled blocks", within(BEGINS + FILL + ABORTS, start=WIDE, words=8192)),
    Shape("fills of many tries", tries(FILL, b"conflict", start=WIDE, words=8192)),
    Shape("fills and commits of many tries", tries(FILL + COMMITS, b"readonly", start=WIDE, words=8192)),
    Shape("moves of one try", within(MOVE, start=WIDE, words=8192)),
    Shape("copies to the arena", within(b"call _ITM_memcpyRtWn 0 0 4096 = ok\n", ARENA, WIDE, 8192)),
    Shape("copies from the arena", within(b"call _ITM_memcpyRnWt 0 0 4096 = ok\n", ARENA, WIDE, 8192)),
    Shape("blocks that log", within(BEGINS + LOGS + COMMITS, ARENA), most=100),
    Shape("cancelled blocks that log", within(BEGINS + LOGS + ABORTS, ARENA)),
    Shape("logs of one try", within(LOGS, ARENA), most=300),
]

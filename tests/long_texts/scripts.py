"""Long scripts of many shapes, each of about so many bytes."""

from texts import BYTES, Shape, filled

MOST = 1 << 24  # bytes of a script
CODE = 65536  # instructions
HEAD = b".memory 8\n.thread\n"
WIDE = b".memory 65536\n.arena 4096\n.thread\nset r1 1\nset r3 8\nset r5 65528\n"
BEGIN, COMMIT, ABORT = (b"_ITM_%sTransaction%s\n" % it for it in ((b"begin", b" r0 -"), (b"commit", b""), (b"abort", b" userAbort")))


def of(unit, head=HEAD, tail=b""):
    """The script of a size: units between a head and a tail."""
    return lambda size: filled(size, unit, head, tail)


def never(unit):
    """Units that stand in groups which stand never."""
    return of(b".rept 0\n" + unit + b".endr\n")


# texts up to the largest one, through `asm`
TEXTS = [
    Shape("a comment", of(BYTES, HEAD + b";")),
    Shape("empty lines", of(b"\n")),
    Shape("blank lines", of(b" \t\r\n")),
    Shape("one blank line", of(b" \t")),
    Shape("bytes of all values", of(BYTES), status=2),
    Shape("one long name", of(b"x"), status=2),
    Shape("one long number", of(b"9", b".memory "), status=2),
    Shape("one long text of digits", of(b"0f", HEAD + b"bytes r0 "), status=2),
    Shape("many fields", of(b" 8", b".memory"), status=2),
    Shape("many items", of(b" 0!", b".memory 8\n.schedule"), status=2),
    Shape("many words of a begin", of(b"+pr_hasNoAbort", HEAD + b"_ITM_beginTransaction r0 pr_hasNoAbort"), status=2),
    Shape("bytes of the opening", of(b".init 0 00\n", b".memory 8\n", b".thread\n")),
    Shape("many bytes of the opening", of(b".init 0 " + 65536 * b"0f" + b"\n", b".memory 65536\n", b".thread\n")),
    Shape("long lines", of(b"set r0 0" + 251 * b" " + b"\n")),
    Shape("groups of nothing", of(b".rept 65536\n.endr\n")),
    Shape("deep groups of nothing", of(256 * b".rept 65536\n" + 256 * b".endr\n")),
    Shape("small groups that stand never", never(b"set r0 0\n")),
    Shape("large groups that stand never", never(1000 * b"_ITM_memmoveRtaWWtaW r10 18446744073709551615 r11\n")),
    Shape("groups that stand often in those that stand never", never(b".rept 65536\nset r0 0\n.endr\n")),
    Shape("deep groups in those that stand never", never(15 * b".rept 2\n" + b"set r0 0\n" + 15 * b".endr\n")),
    Shape("deep groups that stand never", of(256 * b".rept 0\n" + b"set r0 0\n" + 256 * b".endr\n")),
    Shape("choices within choices", never(250 * b"ifnz r1\n" + 250 * b"else\nendif\n")),
    Shape("blocks within blocks", never(250 * BEGIN + 250 * COMMIT)),
    Shape("a fault in the last line", of(b"; nothing\n", HEAD, b"set"), status=2),
]


def code(unit, head=WIDE + BEGIN, tail=COMMIT, lines=None):
    """The script of a number of instructions: units between a head and a tail, and so many lines of the unit."""
    lines = lines or unit.count(b"\n")
    return lambda count: filled(count // lines * len(unit), unit, head, tail)


def two(first, second, head=WIDE + BEGIN, tail=COMMIT):
    """The same of two units, one after the other, with half of the instructions each."""
    halves = code(first, head, b""), code(second, b"", tail)
    return lambda count: (part for half in halves for part in half(count // 2))


NEXT = b"add r2 r2 r3\nand r2 r2 r5\n"
WRITES, FILL = b"_ITM_WU8 r2 r1\n" + NEXT, b"_ITM_memsetW 0 1 65536\n"
MANY = b".patience 1000\n.retries 10000\n" + WIDE.replace(b"thread", b"thread 32")
UNDO, DONE = b"_ITM_addUserUndoAction 1 2\n", b"_ITM_addUserCommitAction 1 _ITM_noTransactionId 2\n"

# Each begin of a block in a block looks for the end of the outermost one, for its room: so these codes cost the square of
# their length.
SQUARE = 6

# Codes up to the longest one, under `sched` and `threads`. The code of several threads stands once, and a log keeps its bytes each time.
CODES = [
    Shape("blocks that count", code(BEGIN + b"_ITM_RU8 r2 0\nadd r2 r2 r1\n_ITM_WU8 0 r2\n" + COMMIT, WIDE, b"")),
    Shape("empty blocks", code(BEGIN + COMMIT, WIDE, b"")),
    Shape("no calls", code(b"add r2 r2 r1\n")),
    Shape("calls that ask", code(b"_ITM_inTransaction r2\n")),
    Shape("reads of many words", code(b"_ITM_RM256 r4 r2\n" + NEXT)),
    Shape("writes of many words", code(WRITES)),
    Shape("blocks within blocks", code(15 * BEGIN + 15 * COMMIT), ratio=SQUARE),
    Shape("cancelled blocks", code(BEGIN + b"_ITM_WU8 0 r1\n" + ABORT + COMMIT), ratio=SQUARE),
    Shape("cancelled blocks after many writes", two(WRITES, BEGIN + b"_ITM_WU8 0 r1\n" + ABORT + COMMIT), ratio=SQUARE),
    Shape("blocks after many writes", two(WRITES, BEGIN + b"_ITM_WU8 0 r1\n" + COMMIT), ratio=SQUARE),
    Shape("blocks that log", code(BEGIN + b"_ITM_LB 0 4096\n" + COMMIT), ratio=SQUARE),
    Shape("cancelled blocks that log", code(BEGIN + b"_ITM_LB 0 4096\n" + ABORT + COMMIT), ratio=SQUARE),
    Shape("logs", code(b"_ITM_LB 0 4096\n"), most=350),
    Shape("accesses of the arena", code(b"st8 0 r1\nld8 r2 0\n")),
    Shape("undo actions", code(UNDO, WIDE + BEGIN, ABORT + COMMIT)),
    Shape("commit actions", code(DONE)),
    Shape("cancelled blocks after many actions", two(UNDO, BEGIN + UNDO + ABORT + COMMIT), ratio=SQUARE),
    Shape("choices", code(125 * b"ifnz r0\n" + 125 * b"endif\n")),
    Shape("blocks that do not begin", code(BEGIN.replace(b"-", b"pr_hasNoIrrevocable+pr_doesGoIrrevocable") + COMMIT, WIDE, b"")),
    Shape("calls that are passed over", code(1000 * b"_ITM_RU8 r2 0\n", WIDE + BEGIN + ABORT, COMMIT)),
    Shape("many threads", lambda count: code(BEGIN + WRITES + COMMIT, MANY, b"")(count // 8), most=2000),
    Shape("fills", lambda count: code(FILL)(count // 64)),
    Shape("fills in blocks", lambda count: code(BEGIN + FILL + COMMIT, WIDE, b"")(count // 64)),
    Shape("moves", lambda count: code(b"_ITM_memmoveRtWt 1 0 65535\n")(count // 64)),
    Shape("fills that hold the clock", lambda count: code(FILL, WIDE + BEGIN.replace(b"-", b"pr_doesGoIrrevocable"))(count // 64)),
]

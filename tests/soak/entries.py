"""The entry points by their names, and the words of a script that stand for calls."""

import collections

BEGIN, COMMIT, ABORT = "_ITM_beginTransaction", "_ITM_commitTransaction", "_ITM_abortTransaction"
MODE, ASKS = "_ITM_changeTransactionMode", "_ITM_inTransaction"
ON_COMMIT, ON_UNDO = "_ITM_addUserCommitAction", "_ITM_addUserUndoAction"
CONTROLS = (BEGIN, COMMIT, ABORT, MODE, ASKS, ON_COMMIT, ON_UNDO)

# words that stand beside these names
INNER, OUTER, SERIAL, NO_ID = "userAbort", "userAbort+outerAbort", "modeSerialIrrevocable", "_ITM_noTransactionId"

NO_ABORT, NO_IRREVOCABLE, GOES = PROPS = ("pr_hasNoAbort", "pr_hasNoIrrevocable", "pr_doesGoIrrevocable")

# how many bytes each type has
SIZES = {"U1": 1, "U2": 2, "U4": 4, "U8": 8, "F": 4, "D": 8, "M64": 8, "M128": 16, "M256": 32, "CF": 8, "CD": 16}


def typed(*hints):
    """The names of these hints with each type, and their sizes."""
    return {f"_ITM_{hint}{type}": size for hint in hints for type, size in SIZES.items()}


READS, WRITES, LOGS, LOG_BYTES = typed("R", "RaR", "RaW", "RfW"), typed("W", "WaR", "WaW"), typed("L"), "_ITM_LB"

# of a copy: whether its ranges may overlap, and whether it reads the arena, or writes it
Copy = collections.namedtuple("Copy", "moves reads_arena writes_arena")
SIDES = ("n", "t", "taR", "taW")
COPIES = {
    f"_ITM_{what}R{source}W{to}": Copy(what == "memmove", source == "n", to == "n")
    for what in ("memcpy", "memmove")
    for source in SIDES
    for to in SIDES
    if not source == to == "n"
}
FILLS = ("_ITM_memsetW", "_ITM_memsetWaR", "_ITM_memsetWaW")

ENTRIES = (*CONTROLS, *READS, *WRITES, *LOGS, LOG_BYTES, *COPIES, *FILLS)
assert len(ENTRIES) == len(set(ENTRIES)) == 129

# a script's own accesses to the arena
LOADS, STORES = ({f"{name}{size}": size for size in (1, 2, 4, 8)} for name in ("ld", "st"))

# calls whose first operand is the register that gets what is answered, and those that write bytes of a register
ANSWERED = {BEGIN, ASKS, *READS, *LOADS}
WRITTEN = {**WRITES, **STORES}
CALLS = {*ENTRIES, *LOADS, *STORES}


def spelled(props):
    """A block's properties in their one order."""
    return "+".join(p for p in PROPS if p in props) or "-"

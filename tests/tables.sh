#!/bin/sh
# Tables of calls through `itmrun sched` and `itmrun check`: what each of them replies and leaves is worked out on plain
# lists of bytes (tests/tables/lists.py). Needs python3.
#
#   sh tests/tables.sh [TABLE..]     all tables, or those that are named
#
# - `accesses`: every type with every hint at every place of five words.
# - `copies`: copies and fills of 0 to 100 bytes between all places of 96, those by the arena between some, and what is
#   refused of them.
# - `irrevocable`: the same once a transaction is irrevocable, in just as many events as it is to take; and every run
#   of three calls that begin and end blocks and make irrevocable.
# - `nests`: every run of five begins, ends and actions of blocks, with each way in which a transaction ends; and
#   sixteen blocks one in the other.
#
# The whole history of each script is compared, and `check` has to find it legal; and where a line has another reply
# than it should, it has to tell that line.
#
# ITMRUN=PROGRAM takes another built program than this tree's. The last line is "N passed, M failed"; the exit status is
# 0 where none failed.

root=$(CDPATH= cd -- "$(dirname -- "$0")/.." && pwd) || exit 1
program=${ITMRUN:-}
if [ -z "$program" ]; then
    # builds the program, if it has to be
    ITMRUN_PROVED=1 "$root/itmrun" sched "$root/examples/counter.itm" >/dev/null || exit 1
    program=$root/crates/itmrun/out/itmrun
fi
exec python3 -B "$root/tests/tables/run.py" "$program" "$@"

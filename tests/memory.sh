#!/bin/sh
# Scripts through `itmrun sched` with each growth of memory refused in turn: those in examples/, and those of tests/rows/
# that tests/memory/rows.txt names. Each has the history and the errors that it has to give where memory is ample.
# Outside the gate; needs rt, which builds the program with no proof, and python3.
#
#   sh tests/memory.sh [JOBS]     so many builds at a time, as many as there are processors where it is not said
#
# A run ends with `itmrun: no memory` and nothing written, or with the whole answer that the soak test's Python scripts
# work out for one thread that finds no memory at one of its calls, or as with ample memory. It takes some 20 minutes of
# processor time, five or more on four cores, and 2 GB for each build at a time. The last line is "N passed, M failed";
# the exit status is 0 where none failed.

root=$(CDPATH= cd -- "$(dirname -- "$0")/.." && pwd) || exit 1
export PYTHONDONTWRITEBYTECODE=1
exec python3 "$root/tests/memory/refuse.py" "$@"

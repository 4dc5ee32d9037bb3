#!/bin/sh
# Whether each wrong body still applies and is a program: sh tests/edits.sh [CRATE..]. Of each edit in must-fail/ and
# wrong-bodies/ of a crate, the file is there, each old text stands once in it, after the edit's earlier pairs, and the
# crate so edited is read, typed and borrow-checked. Nothing is proved, and clauses are not read. Outside the gate; needs
# rt and python3.
#
# Edits of different functions are tried together, and where such a pass fails, each half of them again, down to each
# alone. As many passes run at a time as there are processors. Libraries are read from their sources, so none has to be
# built. All edits take some 25 minutes of processor time, and about 1 GB for each pass. The last line is
# "N passed, M failed"; the exit status is 0 where none failed.

root=$(CDPATH= cd -- "$(dirname -- "$0")/.." && pwd) || exit 1
exec python3 "$root/tests/edits/try.py" "$root" "$@"

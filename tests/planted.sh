#!/bin/sh
# Wrong bodies that no clause can refuse, since they only tell want of memory, of a thread or of a file, or do one thing
# after the other: each of tests/planted/ has to be told by tests. Needs rt and python3.
#
#   sh tests/planted.sh
#
# An edit is in the form of those in must-fail/, and says in two lines more of which crate it is, and which crate's tests
# have to tell it. Nothing is proved. In a copy each edit is a crate of its own, and all tests are run once more beside
# each other: by the crates as they stand, which have to pass, and by each edit, where one has to fail. So all is compiled
# once. The last line is "N passed, M failed"; the exit status is 0 where none failed.

root=$(CDPATH= cd -- "$(dirname -- "$0")/.." && pwd) || exit 1
exec python3 -B "$root/tests/planted/plant.py" "$root"

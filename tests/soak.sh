#!/bin/sh
# Random scripts through `itmrun sched`: what it has to answer is worked out again in Python, from the documents alone
# (docs/SCRIPTS.md and docs/HISTORIES.md). Outside the gate; needs python3.
#
#   sh tests/soak.sh [COUNT [SEED]]     so many scripts, 3000 where it is not said, of a seed, 1 where it is not said
#   sh tests/soak.sh FILE               the script in FILE, as one that failed
#   sh tests/soak.sh threads ..         the same through `itmrun threads`
#
# The scripts have the whole language: every directive and instruction, every entry point with any place, blocks in
# blocks, actions, irrevocable transactions, for up to 8 threads. Many read the same words again and again, by other
# types, in blocks that are cancelled and after them, and in copies whose chunks meet inside a word. In every fifth one
# threads read in blocks within blocks what the others change in short ones, so that these blocks run again alone.
#
# Each run is made event by event, each thread's next load, store or exchange as the schedule says (tests/soak/norec.py
# and run.py). So the whole answer is known: every try with its calls, their replies and the actions that ran, its
# position and its end, the order of tries, the final clock and bytes, which threads gave up, and the exit status. The
# program's answer has to be the same, byte for byte.
#
# Each script is printed by `itmrun asm` too: the print has to be printed as itself, and to be run as the script was.
#
# To `itmrun check` each history has to be legal. So it has to be to tests/soak/verdict.py, which knows no steps: that
# the tries are whole transactions, one after the other, is seen by the plain machine alone. Four to six texts that are
# a change or two away from the history, some of them legal, have to be judged as verdict.py judges them, with the same
# line. So have four to six of versions 2 and 3: there the same calls are told anew, with blocks that ran again from these
# bytes of the arena or from others, with another number of blocks that may be open, and then with up to two changes. From
# 500 scripts on, each verdict and each fault of a text has to have come, in each version, and blocks that ran again.
#
# On threads a run is never the same twice. So each answer of `threads` is followed through its script: the history has to
# be legal to `check` and to verdict.py; each thread's tries have to be, one after the other, what its code does where it is
# given these replies, from the registers and the bytes of its own that the try before left, with the numbers that tries may
# have; and how each thread ended, the errors and the status have to fit. A script with one thread has the one answer that
# run.py works out. These scripts are for up to 4 threads, each of which runs its code up to 40 times, so that they meet.
#
# ITMRUN=PROGRAM takes another built program than this tree's. The exit status is 0 where every answer was right. At
# the first one that was not, the script is kept with what came of it and what had to come, and with the changed history
# in `changed` where that was judged in another way, and the status is 1.

root=$(CDPATH= cd -- "$(dirname -- "$0")/.." && pwd) || exit 1
program=${ITMRUN:-}
if [ -z "$program" ]; then
    # builds the program, if it has to be
    ITMRUN_PROVED=1 "$root/itmrun" sched "$root/examples/counter.itm" >/dev/null || exit 1
    program=$root/crates/itmrun/out/itmrun
fi
work=$(mktemp -d) || exit 1
export PYTHONDONTWRITEBYTECODE=1

soak=$root/tests/soak/check.py
if [ "${1:-}" = threads ]; then
    soak=$root/tests/soak/threads.py
    shift
fi
if [ -f "${1:-}" ]; then
    python3 "$soak" "$program" "$work" "$1"
else
    python3 "$soak" "$program" "$work" "${1:-3000}" "${2:-1}"
fi
status=$?
rmdir "$work" 2>/dev/null
[ "$status" = 0 ] || exit 1

#!/bin/sh
# The worked scripts, those in examples/ and in tests/rows/, and their histories through the built program, with something
# refused or cut off at each place in turn: sh tests/sweeps.sh [SWEEP..]. The gate has them with SCRIPTS=few. Needs python3;
# what refuses needs gcc, and `engines` needs rt.
#
# - `sched`, `asm`, `check` and `threads`: each growth of memory refused, it alone, and it with all that come after it; under
#   `threads` each thread too.
# - `stops`: under `sched` a thread that stops for ever, after each of its events.
# - `cuts`: each proper beginning of a history.
# - `files`: under each command each read and each write that fails, and such that move one byte.
# - `engines`: tests/refused.sh, whose tests call engines, their parts and the plain machine with each allocation refused.
#
# All sweeps, or those that are named, over all scripts; what each answer has to be is said in tests/sweeps/. With SCRIPTS=few
# `sched` and `stops` are as they are else, so that each growth of each script is refused; `asm`, `check` and `threads` try
# each place of some scripts, and of the others one in 16, which the script's text draws, the same at each run; `cuts` and
# `files` take some scripts. Something is refused by a library before the C library's (tests/sweeps/refuse.c). JOBS=N takes so
# many scripts at a time, as many as there are processors where it is not said; one at a time all of them take a quarter of an
# hour, and `engines` some three minutes more. ITMRUN=PROGRAM takes another built program than this tree's. The last line is
# "N passed, M failed"; the exit status is 0 where none failed.

root=$(CDPATH= cd -- "$(dirname -- "$0")/.." && pwd) || exit 1
program=${ITMRUN:-}
if [ -z "$program" ]; then
    # builds the program, if it has to be
    ITMRUN_PROVED=1 "$root/itmrun" sched "$root/examples/counter.itm" >/dev/null || exit 1
    program=$root/crates/itmrun/out/itmrun
fi
work=$(mktemp -d) || exit 1
trap 'rm -rf "$work"' EXIT
case ${SCRIPTS:-all} in
all | few) ;;
*) echo "SCRIPTS is all or few, and not $SCRIPTS" >&2 && exit 1 ;;
esac
[ $# -gt 0 ] || set -- sched asm check threads stops cuts files engines
passed=0
failed=0

# add WORD..: runs this, and adds what its last line counts
add() {
    "$@" >"$work/told" 2>&1
    sed '$d' "$work/told"
    last=$(tail -n 1 "$work/told")
    case $last in
    *' passed, '*' failed')
        passed=$((passed + ${last%% *}))
        last=${last#*, }
        failed=$((failed + ${last%% *}))
        ;;
    *)
        failed=$((failed + 1))
        echo "failed: $sweep: $last"
        ;;
    esac
}

for sweep; do
    case $sweep in
    engines)
        add sh "$root/tests/refused.sh"
        continue
        ;;
    stops | cuts) ;;
    *)
        [ -f "$work/refuse.so" ] || gcc -O1 -shared -fPIC -o "$work/refuse.so" "$root/tests/sweeps/refuse.c" -ldl || exit 1
        ;;
    esac
    add python3 -B "$root/tests/sweeps/sweeps.py" "$program" "$work/refuse.so" "${JOBS:-$(nproc)}" "${SCRIPTS:-all}" "$sweep"
done
echo "$passed passed, $failed failed"
[ "$failed" = 0 ]

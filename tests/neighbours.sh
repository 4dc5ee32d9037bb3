#!/bin/sh
# Plain data beside what transactions write, of which no contract speaks: sh tests/neighbours.sh. Two threads of a script write
# two parts of a word, one of them in irrevocable transactions, and a thread of a library of C (tests/neighbours/plain.c)
# stores in the rest of the word. In ten runs none of its stores may be lost: where whole words are stored, most runs lose
# some. ITMRUN=PROGRAM takes another built program than this tree's. Needs gcc. The last line is "N passed, M failed"; the
# exit status is 0 where none failed.

root=$(CDPATH= cd -- "$(dirname -- "$0")/.." && pwd) || exit 1
program=${ITMRUN:-}
if [ -z "$program" ]; then
    # builds the program, if it has to be
    ITMRUN_PROVED=1 "$root/itmrun" sched "$root/examples/counter.itm" >/dev/null || exit 1
    program=$root/crates/itmrun/out/itmrun
fi
work=$(mktemp -d) || exit 1
trap 'rm -rf "$work"' EXIT
gcc -O1 -shared -fPIC -o "$work/plain.so" "$root/tests/neighbours/plain.c" -ldl || exit 1
passed=0
failed=0

# adders PROPS PLACE: a thread that adds 1 to these two bytes, 5,400 times
adders() {
    printf '.thread\n.rept 5400\nset r2 1\n_ITM_beginTransaction r0 %s\n_ITM_RU2 r1 %s\n' "$1" "$2"
    printf 'add r1 r1 r2\n_ITM_WU2 %s r1\n_ITM_commitTransaction\n.endr\n' "$2"
}

# with so many words no other block that the program keeps is as long as the cells
{
    printf '.memory 4008\n.patience 1000\n.retries 10000\n'
    adders - 0
    adders pr_doesGoIrrevocable 2
} >"$work/input"

for run in 1 2 3 4 5 6 7 8 9 10; do
    rm -f "$work/told"
    CELLS=4016 TOLD=$work/told LD_PRELOAD=$work/plain.so "$program" threads "$work/input" >"$work/output" || exit 1
    # 5400 in each of the two parts
    if [ "$(cat "$work/told")" = '0 lost of some, 353899800' ]; then
        passed=$((passed + 1))
    else
        failed=$((failed + 1))
        echo "failed: run $run: $(cat "$work/told")"
    fi
done
echo "$passed passed, $failed failed"
[ "$failed" = 0 ]

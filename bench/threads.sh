#!/bin/sh
# How many transactions a second `itmrun threads` commits, with 1, 2 and 4 threads, and how many of their tries came to a
# conflict.
#
# - `counter`: each transaction adds to the one word of all threads.
# - `distinct`: each adds to its thread's own word.
# - `table`: each reads 8 of 1,024 words, and every tenth one writes one of them.
# - `writes`: each writes 1,024 words, the same ones as those of other threads.
#
# Each script is run with few transactions and with many, 11 times each, by turns. Told is how many more were committed in
# how much more time, of the medians: so the start of the process and of its threads is left out, and what is left is the
# transactions, with the record of each call, and the writing of their lines. In the long scripts' histories conflicts are
# counted, for each 100 transactions that committed. Needs a `date` that prints nanoseconds.
#
# ITMRUN=PROGRAM takes another built program than this tree's.

root=$(CDPATH= cd -- "$(dirname -- "$0")/.." && pwd) || exit 1
program=${ITMRUN:-}
if [ -z "$program" ]; then
    # builds the program, if it has to be, before anything is timed
    ITMRUN_PROVED=1 "$root/itmrun" sched "$root/examples/counter.itm" >/dev/null || exit 1
    program=$root/crates/itmrun/out/itmrun
fi
work=$(mktemp -d) || exit 1
trap 'rm -rf "$work"' EXIT

# block LINE..: a transaction
block() {
    echo '_ITM_beginTransaction r0 -'
    printf '%s\n' "$@"
    echo '_ITM_commitTransaction'
}

# read_table: eight words of the table, each some places behind the one before; r3 is the place of the last one
read_table() {
    printf '%s\n' '.rept 8' 'add r3 r3 r4' 'and r3 r3 r5' '_ITM_RU8 r2 r3' .endr
}

# round WORKLOAD: what a thread does again and again
round() {
    case $1 in
    counter) block '_ITM_RU8 r2 8' 'add r2 r2 r1' '_ITM_WU8 8 r2' ;;
    distinct) block '_ITM_RU8 r2 r6' 'add r2 r2 r1' '_ITM_WU8 r6 r2' ;;
    table)
        echo '.rept 9'
        block "$(read_table)"
        echo .endr
        block "$(read_table)" 'add r2 r2 r1' '_ITM_WU8 r3 r2'
        ;;
    writes)
        echo 'set r3 0'
        echo 'add r2 r2 r1'
        block '.rept 1024' '_ITM_WU8 r3 r2' 'add r3 r3 r7' .endr
        ;;
    esac
}

# script WORKLOAD THREADS ROUNDS: first each thread takes a number, which is the place of a word of its own
script() {
    printf '%s\n' '.memory 8192' '.patience 1000' '.retries 10000' ".thread $2"
    printf '%s\n' 'set r1 64' 'set r4 2968' 'set r5 8184' 'set r7 8'
    block '_ITM_RU8 r6 0' 'add r6 r6 r1' '_ITM_WU8 0 r6'
    echo 'mov r3 r6'
    echo ".rept $3"
    round "$1"
    echo .endr
}

# run SCRIPT: its nanoseconds
run() {
    start=$(date +%s%N)
    "$program" threads "$work/$1" >"$work/history" || exit 1
    echo $(($(date +%s%N) - start))
}

# count OUTCOME..: how many tries of the last history ended so
count() {
    sed -n 's/^attempt [^ ]* [^ ]* [^ ]* \([a-z]*\) .*/\1/p' "$work/history" | grep -c "$@"
}

# row WORKLOAD THREADS FEW MANY: a line of the table
row() {
    script "$1" "$2" "$3" >"$work/few"
    script "$1" "$2" "$4" >"$work/many"
    : >"$work/times.few"
    : >"$work/times.many"
    conflicts=0
    for turn in 1 2 3 4 5 6 7 8 9 10 11; do
        run few >>"$work/times.few"
        few=$(count -e committed -e readonly)
        run many >>"$work/times.many"
        many=$(count -e committed -e readonly)
        conflicts=$((conflicts + $(count -e conflict)))
    done
    few_time=$(sort -n "$work/times.few" | sed -n 6p)
    many_time=$(sort -n "$work/times.many" | sed -n 6p)
    awk -v name="$1" -v threads="$2" -v few="$few" -v many="$many" -v conflicts="$conflicts" \
        -v few_time="$few_time" -v many_time="$many_time" 'BEGIN {
        time = (many_time - few_time) / 1e9
        speed = time > 0 ? (many - few) / time : 0
        printf "%9s %8d %9d %11.6f %14.0f %14.1f\n", name, threads, many - few, time, speed, 100 * conflicts / 11 / many
    }'
}

printf '%9s %8s %9s %11s %14s %14s\n' workload threads commits seconds 'commits a second' 'conflicts/100'
for threads in 1 2 4; do
    row counter "$threads" 1000 13000
    row distinct "$threads" 1000 13000
    row table "$threads" 25 250
    row writes "$threads" 3 31
done

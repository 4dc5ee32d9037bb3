#!/bin/sh
# Which of two builds of `itmrun` runs scripts faster: `sh bench/compare.sh OLD NEW ROUNDS`, where OLD and NEW are the
# programs (crates/itmrun/out/itmrun of two checkouts, say) and ROUNDS is how often each of them runs each script, 40
# where it is left out.
#
# The scripts are the longest ones of bench/sched.sh: one thread with 10,000 blocks, and 2, 8 and 32 threads with 76,800
# events, all on one word and each on a word of its own. Then, in a second table, some 50,000 reads in blocks of 1, 16,
# 256, 512 and 8,192 reads, of as many words and of one. The two programs take turns, so that what slows the machine down
# for a while slows both; told are the events or reads a second of each program's best run, and the new speed as a part of
# the old one. Both have to write the same history. Needs a `date` that prints nanoseconds.

old=${1:?the old program}
new=${2:?the new program}
rounds=${3:-40}
work=$(mktemp -d) || exit 1
trap 'rm -rf "$work"' EXIT

. "$(dirname -- "$0")/scripts.sh"

# run PROGRAM: $work/script once; the nanoseconds of that
run() {
    start=$(date +%s%N)
    "$1" sched "$work/script" >"$work/history" || return 1
    end=$(date +%s%N)
    echo $((end - start))
}

# row FIRST SECOND COUNT: both programs on $work/script, by turns; a line that begins with these
row() {
    "$old" sched "$work/script" >"$work/expected" && "$new" sched "$work/script" >"$work/history" || exit 1
    cmp -s "$work/expected" "$work/history" || {
        echo "bench: the two histories of $1 ($2) differ" >&2
        exit 1
    }
    best_old=
    best_new=
    round=0
    while [ "$round" -lt "$rounds" ]; do
        took=$(run "$old") || exit 1
        [ -n "$best_old" ] && [ "$best_old" -le "$took" ] || best_old=$took
        took=$(run "$new") || exit 1
        [ -n "$best_new" ] && [ "$best_new" -le "$took" ] || best_new=$took
        round=$((round + 1))
    done
    awk -v first="$1" -v second="$2" -v count="$3" -v old="$best_old" -v new="$best_new" 'BEGIN {
        printf "%8d %8s %8d %14.0f %14.0f %8.3f\n", first, second, count, count / old * 1e9, count / new * 1e9, old / new
    }'
}

printf '%8s %8s %8s %14s %14s %8s\n' threads words events 'old events/s' 'new events/s' new/old
{
    printf '.memory 8\n.thread\n'
    blocks 10000 0
} >"$work/script"
row 1 one 60000
for threads in 2 8 32; do
    for words in one distinct; do
        side_by_side "$threads" "$words" 76800 >"$work/script"
        row "$threads" "$words" 76800
    done
done

printf '\n%8s %8s %8s %14s %14s %8s\n' reads words all 'old reads/s' 'new reads/s' new/old
for count in 1 16 256 512 8192; do
    blocks=$((50000 / (count + 2)))
    for words in "$count" 1; do
        {
            printf '.memory 65536\n.thread\n'
            reads "$blocks" "$count" "$words"
        } >"$work/script"
        row "$count" "$words" $((blocks * count))
        [ "$count" -gt 1 ] || break
    done
done

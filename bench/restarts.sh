#!/bin/sh
# How many transactions a second commit that read 2,000 words and then 200 others in an inner block, while one thread more
# adds 1 to the first of the 200 again and again: where such a change costs the whole try, and where the inner block may go
# back to its begin alone, up to 100 times in a transaction. `sh bench/restarts.sh [MILLISECONDS]`, how long a run takes, 1,000
# where it is left out.
#
# Between two changes the one thread reads as many words as half an outer block. With 1 and with 3 threads that read, seven
# runs of each kind, by turns; told are the medians of the commits a second, and of the tries that came to nothing, for each
# 100 that committed.
#
# BENCH=PROGRAM takes another built `runtime_bench` than this tree's.

milliseconds=${1:-1000}
root=$(CDPATH= cd -- "$(dirname -- "$0")/.." && pwd) || exit 1
work=$(mktemp -d) || exit 1
trap 'rm -rf "$work"' EXIT

program=${BENCH:-}
if [ -z "$program" ]; then
    # proves and builds our program, if it has to be, before anything is timed
    (cd "$root/crates/runtime_bench" && rt run) >"$work/said" 2>&1 || {
        cat "$work/said" >&2
        exit 1
    }
    program=$root/crates/runtime_bench/out/runtime_bench
fi

# middle FILE: the median of seven numbers
middle() {
    sort -n "$1" | sed -n 4p
}

printf '%8s %8s %14s %12s\n' readers restarts 'commits a second' 'lost/100'
for readers in 1 3; do
    rm -f "$work"/*.rates "$work"/*.lost
    for round in 1 2 3 4 5 6 7; do
        for restarts in 0 100; do
            "$program" nested $((readers + 1)) 2000 "$milliseconds" "$restarts" >"$work/line" || exit 1
            awk '{ print $7 }' "$work/line" >>"$work/$restarts.rates"
            awk '{ printf "%.1f\n", $4 ? 100 * ($5 - $4) / $4 : 0 }' "$work/line" >>"$work/$restarts.lost"
        done
    done
    for restarts in 0 100; do
        printf '%8s %8s %14s %12s\n' "$readers" "$restarts" "$(middle "$work/$restarts.rates")" "$(middle "$work/$restarts.lost")"
    done
done

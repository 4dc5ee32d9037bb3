#!/bin/sh
# How long a transaction takes beside NOrec in plain Rust and GCC's libitm: `sh bench/turns.sh PEERS [ROUNDS [MILLISECONDS
# [THREADS]]]`, where PEERS is the folder of bench/peers.sh, ROUNDS how often each program runs, 25 where it is left out,
# MILLISECONDS how long a run takes (50), and THREADS with how many threads ('1 2 4').
#
# On each row the programs run by turns and never side by side, so that what slows the machine down for a while slows all of
# them. Told are the nanoseconds for each commit, the least and the median of the rounds, and of ours what they commit in a
# second as a part of what each of the others does: by the least, and by the median. Only the least is worth much beside other
# work. With the numbers that are usual it takes about five minutes.

rounds=${2:-25}
milliseconds=${3:-50}
threads=${4:-1 2 4}
root=$(CDPATH= cd -- "$(dirname -- "$0")/.." && pwd) || exit 1
work=$(mktemp -d) || exit 1
trap 'rm -rf "$work"' EXIT

. "$root/bench/peers.sh"
peers "$1"
# (the one that searches row by row is no peer)
programs=$(echo "$programs" | sed 's/ list / /')
others=
for program in $programs; do is_ours "$program" || others="$others $program"; done
under='timeout 60'

# measured WORKLOAD THREADS SIZE: each program, so often; $work/told has a line of each, with its least and its median
measured() {
    rm -f "$work"/*.times
    round=0
    while [ "$round" -lt "$rounds" ]; do
        for program in $programs; do
            run "$program" "$1" "$2" "$3" "$milliseconds" >"$work/line" || stop "$program failed at $1 $2 $3"
            awk '{ print 1e9 / $7 }' "$work/line" >>"$work/$(basename "$program").times"
        done
        round=$((round + 1))
    done
    for program in $programs; do
        sort -g "$work/$(basename "$program").times" | awk -v name="$(basename "$program")" '
            { all[NR] = $1 }
            END { print name, all[1], all[int((NR + 1) / 2)] }'
    done >"$work/told"
    for program in $programs; do
        is_ours "$program" || continue
        for other in $others; do
            paste "$work/$(basename "$other").times" "$work/$(basename "$program").times" | awk '{ print $1 / $2 }' | sort -g |
                awk -v names="$(basename "$program") $(basename "$other")" '{ all[NR] = $1 } END { print names, all[int((NR + 1) / 2)] }'
        done
    done >"$work/pairs"
}

# row WORKLOAD THREADS SIZE: a line of each program
row() {
    measured "$@"
    awk -v row="$(printf '%8s %7d %5d' "$1" "$2" "$3")" -v others="$others" '
        NR != FNR { pair[$1, $2] = $3; next }
        { name[++names] = $1; least[$1] = $2; median[$1] = $3 }
        END {
            count = split(others, other)
            for (n = 1; n <= count; n++) is_other[other[n]] = 1
            for (n = 1; n <= names; n++) {
                it = name[n]
                printf "%s %16s %10.1f %10.1f", row, it, least[it], median[it]
                for (m = 1; m <= count && !(it in is_other); m++)
                    printf " %8.3f %8.3f %8.3f", least[other[m]] / least[it], median[other[m]] / median[it], pair[it, other[m]]
                printf "\n"
            }
        }' "$work/told" "$work/pairs"
}

{
    printf '%8s %7s %5s %16s %10s %10s' workload threads size program least median
    for program in $others; do printf ' %8s %8s %8s' "/$program" median rounds; done
    printf '\n'
}
for count in $threads; do
    row counter "$count" 1
    row transfer "$count" 1024
    for size in 8 16 256 512; do row readonly "$count" "$size"; done
    for size in 1 8 16 512; do row writes "$count" "$size"; done
done

#!/bin/sh
# How many instructions a transaction takes, on one thread: `sh bench/instructions.sh PEERS`, where PEERS is the folder of
# bench/peers.sh, left out to count our programs alone: those whose transactions stand at one place, two and ten.
#
# Each program commits so many transactions, and then some thousands more, under valgrind's callgrind, which counts the
# instructions of the whole process. Told are those that the longer run has more, for each transaction: so the begin and the end
# of a process are left out, and the first transactions, which may take more. Beside other work the counts stay the same, but
# for libitm's, whose threads wait in a loop until all are there.

root=$(CDPATH= cd -- "$(dirname -- "$0")/.." && pwd) || exit 1
work=$(mktemp -d) || exit 1
trap 'rm -rf "$work"' EXIT

. "$root/bench/peers.sh"
peers "$1"
command -v valgrind >/dev/null || stop 'there is no valgrind'
under="valgrind --tool=callgrind --callgrind-out-file=$work/counts"

# counted PROGRAM WORKLOAD SIZE COUNT: the instructions of a process that commits so many
counted() {
    words="$2 1 $3 0"
    # (ours has a word more before the count)
    if is_ours "$1"; then words="$words 0"; fi
    run "$1" $words "$4" >"$work/line" 2>"$work/said" || stop "$1 failed at $2 $3"
    sed -n 's/.*Collected : //p' "$work/said"
}

# row WORKLOAD SIZE FEW MANY: a line of what each program takes, after the first FEW transactions and up to MANY
row() {
    printf '%8s %8d' "$1" "$2"
    for program in $programs; do
        few=$(counted "$program" "$1" "$2" "$3") && many=$(counted "$program" "$1" "$2" "$4") || exit 1
        printf ' %12d' $(((many - few) / ($4 - $3)))
    done
    printf '\n'
}

printf '%8s %8s' workload size
for program in $programs; do printf ' %12s' "$(basename "$program")"; done
printf '\n'
row counter 1 4000 24000
row transfer 1024 4000 24000
for size in 8 16; do row readonly "$size" 4000 24000; done
for size in 256 512; do row readonly "$size" 400 1400; done
for size in 1 8 16; do row writes "$size" 4000 24000; done
row writes 512 400 1400

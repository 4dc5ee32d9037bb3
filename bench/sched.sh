#!/bin/sh
# How fast `itmrun sched` runs, in two tables: the seconds of a run, and its events a second.
#
# - One thread: 1, 10, 100, 1000 and 10000 blocks, each of which reads a word, adds one to it and writes it back. Each
#   block takes six events.
# - 2, 8 and 32 threads that run such blocks side by side, two events of each in turn, all on one word, where blocks
#   conflict and are tried again, and each on a word of its own: 768, 7680 and 76800 events. A thread has more blocks
#   than its events can end, so that each event takes place.
#
# A run includes the start of the process, reading the script and writing the history; short scripts are run many times
# and the mean is told. Needs a `date` that prints nanoseconds. `sh bench/sched.sh N` leaves out runs of more than N
# events.

most=${1:-76800}
root=$(CDPATH= cd -- "$(dirname -- "$0")/.." && pwd) || exit 1
work=$(mktemp -d) || exit 1
trap 'rm -rf "$work"' EXIT

# builds the program, if it has to be, before anything is timed
ITMRUN_PROVED=1 "$root/itmrun" sched "$root/examples/counter.itm" >/dev/null || exit 1
program=$root/crates/itmrun/out/itmrun

. "$root/bench/scripts.sh"

# run EVENTS: $work/script so often that it takes a while; sets runs and the nanoseconds of them all
run() {
    runs=$((6000 / $1))
    [ "$runs" -ge 5 ] || runs=5
    [ "$runs" -le 200 ] || runs=200
    start=$(date +%s%N)
    i=0
    while [ "$i" -lt "$runs" ]; do
        "$program" sched "$work/script" >"$work/history" || exit 1
        i=$((i + 1))
    done
    end=$(date +%s%N)
    nanoseconds=$((end - start))
}

# speed EVENTS: the end of a line
speed() {
    awk -v events="$1" -v runs="$runs" -v time="$nanoseconds" 'BEGIN {
        seconds = time / 1e9 / runs
        printf "%8d %8d %14.6f %14.0f\n", events, runs, seconds, events / seconds
    }'
}

printf '%8s %8s %8s %14s %14s\n' blocks events runs 'seconds a run' 'events a second'
for count in 1 10 100 1000 10000; do
    events=$((6 * count))
    [ "$events" -le "$most" ] || continue
    {
        printf '.memory 8\n.thread\n'
        blocks "$count" 0
    } >"$work/script"
    run "$events"
    # the clock tells how many writers committed
    case $(tail -n 1 "$work/history") in
    "final $((2 * count)) "*) ;;
    *)
        echo "bench: $count blocks: not all of them committed" >&2
        exit 1
        ;;
    esac
    printf '%8d ' "$count"
    speed "$events"
done

printf '\n%8s %8s %8s %8s %14s %14s\n' threads words events runs 'seconds a run' 'events a second'
for threads in 2 8 32; do
    for words in one distinct; do
        for events in 768 7680 76800; do
            [ "$events" -le "$most" ] || continue
            side_by_side "$threads" "$words" "$events" >"$work/script"
            run "$events"
            printf '%8d %8s ' "$threads" "$words"
            speed "$events"
        done
    done
done

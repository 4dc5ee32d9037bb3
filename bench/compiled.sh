#!/bin/sh
# How many transactions of compiled programs commit in a second: `sh bench/compiled.sh [LIBRARY [MILLISECONDS [ROUNDS]]]`.
#
# bench/compiled.c is built with `gcc -fgnu-tm`, and runs on LIBRARY (compiled/out/libitm.so.1, which compiled/build.sh
# builds) and on libitm by its methods ml_wt, gl_wt and the one that it takes by itself. The four run by turns, ROUNDS times
# (5) for MILLISECONDS each (200), so that what else the machine does meets all alike. Told are the medians, in thousands,
# and the library's as a part of ml_wt's. A machine with other work gives figures that are worth nothing. With WORD=uint32_t
# the words that they touch have 4 bytes, as an int has, and not 8.
set -u
root=$(CDPATH= cd -- "$(dirname -- "$0")/.." && pwd) || exit 1
library=${1:-$root/compiled/out/libitm.so.1} time=${2:-200} rounds=${3:-5}

stop() {
    echo "compiled.sh: $*" >&2
    exit 1
}

[ -f "$library" ] || stop "there is no $library: sh compiled/build.sh builds it"
library=$(CDPATH= cd -- "$(dirname -- "$library")" && pwd)
work=$(mktemp -d) || exit 1
trap 'rm -rf "$work"' EXIT
"${CC:-gcc}" -O2 -fgnu-tm -pthread -Wno-clobbered -DWORD="${WORD:-uint64_t}" -o "$work/bench" "$root/bench/compiled.c" || exit 1

# once RUNTIME WORKLOAD SIZE THREADS: commits in a second
once() {
    case $1 in
    ours) LD_LIBRARY_PATH=$library timeout 60 "$work/bench" "$2" "$3" "$4" "$time" ;;
    default) timeout 60 "$work/bench" "$2" "$3" "$4" "$time" ;;
    *) ITM_DEFAULT_METHOD=$1 timeout 60 "$work/bench" "$2" "$3" "$4" "$time" ;;
    esac || stop "$1 failed at $2 $3 on $4 threads"
}

# row WORKLOAD SIZE THREADS
row() {
    for round in $(seq "$rounds"); do
        for runtime in ours ml_wt gl_wt default; do
            once "$runtime" "$@" >>"$work/$runtime" || exit 1
        done
    done
    printf '%9s %5s %7s' "$1" "$2" "$3"
    for runtime in ours ml_wt gl_wt default; do
        median=$(sort -n "$work/$runtime" | awk '{ all[NR] = $1 } END { print all[int((NR + 1) / 2)] }')
        echo "$median" >>"$work/medians"
        printf ' %9d' $((median / 1000))
        rm "$work/$runtime"
    done
    awk 'NR == 1 { ours = $1 } NR == 2 { printf " %6.2f\n", ours / $1 }' "$work/medians"
    rm "$work/medians"
}

printf '%9s %5s %7s %9s %9s %9s %9s %6s\n' workload size threads ours ml_wt gl_wt default part
for threads in 1 2 4; do
    for load in 'counter 1' 'transfer 1024' 'reads 16' 'reads 256' 'writes 1' 'writes 8' 'writes 64' 'writes 1024'; do
        row $load "$threads" || exit 1
    done
done

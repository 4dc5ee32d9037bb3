#!/bin/sh
# What compiled kernels and small loops cost: `sh bench/kernels.sh [instructions|turns [LIBRARY [ROUNDS]]]`.
#
# The kernels of compiled/programs/kernels and the loops of bench/loops.c are built with `gcc -fgnu-tm -O2`, and run on
# LIBRARY (compiled/out/libitm.so.1, which compiled/build.sh builds) and on libitm by its methods ml_wt, gl_wt and the one that
# it takes by itself; the kernels by turns also with one mutex around each block (bench/mutex.c in libitm's place). Each kernel
# checks its own result.
#
# `instructions` (what is done where nothing is said) counts them by valgrind's callgrind, on one thread: told are those of a
# round, by the difference of a long run and a short one, so without the begin and the end of a process, and ours as a part of
# ml_wt's. Beside other work these counts stay the same. `turns` tells the milliseconds of a run on 1, 2 and 4 threads, the
# least and the median of ROUNDS (9), all by turns. On a machine with other work only the least is worth anything.
set -u
root=$(CDPATH= cd -- "$(dirname -- "$0")/.." && pwd) || exit 1
what=${1:-instructions} library=${2:-$root/compiled/out/libitm.so.1} turns=${3:-9}
kernels='genome intruder kmeans labyrinth queue scans skip_list vacation'
loops='one first again few many written fresh own narrow copy out fill'

stop() {
    echo "kernels.sh: $*" >&2
    exit 1
}

[ -f "$library" ] || stop "there is no $library: sh compiled/build.sh builds it"
library=$(CDPATH= cd -- "$(dirname -- "$library")" && pwd)
work=$(mktemp -d) || exit 1
trap 'rm -rf "$work"' EXIT

build() {
    "${CC:-gcc}" -O2 -fgnu-tm -pthread -Wno-clobbered -o "$work/$(basename "$1" .c)" "$1" || exit 1
}

# run RUNTIME WORDS..: under the command in `under`, if there is one
under=
run() {
    runtime=$1
    shift
    case $runtime in
    ours) LD_LIBRARY_PATH=$library timeout 300 $under "$@" ;;
    default) timeout 300 $under "$@" ;;
    mutex) LD_LIBRARY_PATH=$work/mutex timeout 300 $under "$@" ;;
    *) ITM_DEFAULT_METHOD=$runtime timeout 300 $under "$@" ;;
    esac
}

# rounds_of KERNEL: of a short run and a long one, each whole turns of the kernel
rounds_of() {
    case $1 in
    genome) echo 1000 5000 ;;
    kmeans) echo 100 500 ;;
    labyrinth) echo 150 600 ;;
    intruder) echo 200 1000 ;;
    queue | skip_list) echo 1000 5000 ;;
    *) echo 300 1300 ;;
    esac
}

# counted RUNTIME PROGRAM WORDS..: the instructions of one run
counted() {
    run "$@" >"$work/line" 2>"$work/said" || stop "$* failed"
    ! grep -q wrong "$work/line" || stop "$* was wrong"
    sed -n 's/.*Collected : //p' "$work/said"
}

# row NAME FEW MANY WORDS..: instructions of a round of a program that takes the number of rounds as its last word
row() {
    name=$1 few=$2 many=$3
    shift 3
    printf '%10s' "$name"
    for runtime in ours ml_wt gl_wt default; do
        less=$(counted "$runtime" "$@" "$few") && more=$(counted "$runtime" "$@" "$many") || exit 1
        each=$(((more - less) / (many - few)))
        printf ' %9d' "$each"
        case $runtime in
        ours) ours=$each ;;
        ml_wt) part=$((100 * ours / each)) ;;
        esac
    done
    printf ' %4d.%02d\n' $((part / 100)) $((part % 100))
}

instructions() {
    command -v valgrind >/dev/null || stop 'there is no valgrind'
    under="valgrind --tool=callgrind --callgrind-out-file=$work/counts"
    printf '%10s %9s %9s %9s %9s %7s\n' 'a round' ours ml_wt gl_wt default part
    for kernel in $kernels; do row "$kernel" $(rounds_of "$kernel") "$work/$kernel" 1 || exit 1; done
    build "$root/bench/loops.c"
    for loop in $loops; do row "$loop" 1000 5000 "$work/loops" "$loop" || exit 1; done
}

# timed RUNTIME KERNEL THREADS: adds the milliseconds of one run to the runtime's times
timed() {
    began=$(date +%s%N)
    run "$1" "$work/$2" "$3" "$(rounds_of "$2" | sed 's/.* //')" | grep -q right || stop "$2 was wrong on $1 with $3 threads"
    echo $((($(date +%s%N) - began) / 10000)) >>"$work/$1.times"
}

by_turns() {
    mkdir "$work/mutex"
    "${CC:-gcc}" -O2 -fPIC -shared -Wl,-soname,libitm.so.1 -Wl,--version-script="$root/compiled/libitm.map" \
        -o "$work/mutex/libitm.so.1" "$root/bench/mutex.c" -pthread || exit 1
    printf '%10s %7s' kernel threads
    for runtime in ours ml_wt gl_wt default mutex; do printf ' %15s' "$runtime"; done
    printf '\n'
    for kernel in $kernels; do
        for threads in 1 2 4; do
            for turn in $(seq "$turns"); do
                for runtime in ours ml_wt gl_wt default mutex; do timed "$runtime" "$kernel" "$threads" || exit 1; done
            done
            printf '%10s %7s' "$kernel" "$threads"
            for runtime in ours ml_wt gl_wt default mutex; do
                sort -n "$work/$runtime.times" | awk '{ all[NR] = $1 / 100 } END { printf " %7.2f %7.2f", all[1], all[int((NR + 1) / 2)] }'
                rm "$work/$runtime.times"
            done
            printf '\n'
        done
    done
}

for kernel in $kernels; do build "$root/compiled/programs/kernels/$kernel.c"; done
case $what in
instructions) instructions ;;
turns) by_turns ;;
*) stop 'instructions or turns' ;;
esac

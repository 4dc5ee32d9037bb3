#!/bin/sh
# usage: sh compiled/test.sh [few]
#
# Builds the programs of compiled/programs and judge/programs by `gcc -fgnu-tm` and runs them on the library of this
# folder. Each program has its own sums and tells by itself whether they are right. `few` builds some of them at -O2 and
# runs them on four threads, in less than a minute.
#
# Environment:
#   LIB      the folder of the libitm.so.1 that is tested, compiled/out where it is not set
#   CC, CXX  the compilers, gcc and g++ where they are not set
#   ONLY     the names of the programs to take, such as `bank kmeans`; all where it is not set
#   LEVELS   of optimisation, `0 2 3` where it is not set
#   THREADS  `1 2 4` where it is not set
#   LONG     rounds of the long run on four threads at -O2, 20000 where it is not set
#   LIMIT    seconds for one run, 60 where it is not set
#   LIBITM   the folder libitm of GCC's source, for its own test programs; where it is not set, and the source of GCC 12
#            is installed (Debian: gcc-12-source), it is taken out of that
#
# A row for each program tells, by level, the numbers of threads with which it was right. Those of programs/faults run on the
# compiler's own libitm too, at -O0 on four threads (from -O1 on it leaves `x++` of a cancelled block done): that counts for
# nothing. The last line is `N passed, M failed`; the exit status is 0 where none failed.
set -u
here=$(CDPATH= cd -- "$(dirname -- "$0")" && pwd) || exit 1
lib=${LIB:-$here/out}
cc=${CC:-gcc} cxx=${CXX:-g++}
levels=${LEVELS:-0 2 3} thread_counts=${THREADS:-1 2 4} long=${LONG:-20000} limit=${LIMIT:-60}
case ${1:-all} in
all) mode=all ;;
few) mode=few levels=2 thread_counts=4 long=0 ;;
*) sed -n '2s/^# //p' "$0" >&2 && exit 1 ;;
esac
# few of them, which touch each part of the library
few='counters words nested relaxed names actions locals heap_list stacks ends foreign contended own_stack thread_local in_turn
     loads late vacation labyrinth coroutine_nested fork_many new_replaced trim undo_tx reused'

work=$(mktemp -d) || exit 1
trap 'rm -rf "$work"' EXIT
passed=0 failed=0

if ! echo 'int x; int main(void) { __transaction_atomic { x++; } }' | $cc -fgnu-tm -x c -o "$work/empty" - 2>/dev/null; then
    echo "skipped: $cc has no -fgnu-tm here"
    echo '0 passed, 0 failed'
    exit 0
fi
if [ ! -f "$lib/libitm.so.1" ]; then
    [ -z "${LIB:-}" ] || { echo "compiled/test.sh: there is no $lib/libitm.so.1" >&2 && exit 1; }
    sh "$here/build.sh" || exit 1
fi
lib=$(CDPATH= cd -- "$lib" && pwd) || exit 1
# or all of this would be a test of the compiler's own library
LD_LIBRARY_PATH=$lib ldd "$work/empty" | grep -q "$lib/libitm.so.1" ||
    { echo "compiled/test.sh: $lib/libitm.so.1 is not taken" >&2 && exit 1; }

# is_wanted NAME
is_wanted() {
    wanted=${ONLY:-}
    [ -n "$wanted" ] || [ "$mode" = all ] || wanted=$few
    [ -z "$wanted" ] && return 0
    case " $(echo $wanted) " in
    *" $1 "*) return 0 ;;
    *) return 1 ;;
    esac
}

# name_of SOURCE
name_of() {
    basename "${1%.c*}"
}

# the files of the programs
sources() {
    for source in "$here"/programs/*.c "$here"/programs/*/*.c "$here"/programs/*/*.cpp "$here"/../judge/programs/*.c; do
        name=$(name_of "$source")
        case $source in *.cpp) command -v "$cxx" >/dev/null || continue ;; esac
        [ "$name" != plug ] && [ -f "$source" ] && is_wanted "$name" && echo "$source"
    done
}

# key_of SOURCE: a name that the programs of all folders may share with each other
key_of() {
    echo "$(basename "$(dirname "$(dirname "$1")")")-$(basename "$(dirname "$1")")-$(name_of "$1")"
}

# build SOURCE LEVEL: one with a part in NAME_plain.cc has that without transactions
build() {
    program=$work/$(key_of "$1").$2 transactions=-fgnu-tm plain=${1%.c*}_plain.cc compiler=$cc
    flags=$(sed -n 's/.*Built with \(-.*\) \*\/$/\1/p' "$1")
    grep -q '^#define NO_TRANSACTIONS' "$1" && transactions=
    case $1 in *.cpp) compiler=$cxx ;; esac
    if [ -f "$plain" ]; then
        $cxx -O"$2" -c -o "$program.o" "$plain" 2>"$program.told" || return 1
        plain=$program.o
    else
        plain=
    fi
    $compiler -O"$2" $transactions -pthread $flags -o "$program" "$1" $plain -ldl 2>"$program.told" || return 1
    grep -q 'PROGRAM\.so' "$1" || return 0
    $cc -O"$2" -fgnu-tm -fPIC -shared -o "$program.so" "$here/programs/plug.c" 2>"$program.told"
}

# run PROGRAM WORD..: what it tells goes to PROGRAM.out and PROGRAM.err
run() {
    program=$1
    shift
    LD_LIBRARY_PATH=$lib timeout -k 5 "$limit" "$program" "$@" >"$program.out" 2>"$program.err"
}

# due SOURCE: what its program has to print: one of judge/programs nothing, or what it has by hand
due() {
    case $1 in
    */judge/programs/cancelled.c) echo 'x is 0' ;;
    */judge/programs/*) ;;
    *) echo right ;;
    esac
}

# answer SOURCE PROGRAM STATUS: nothing where all is right, else what was wrong in a word
answer() {
    case $3 in
    0) [ "$(tail -n 1 "$2.out")" = "$(due "$1")" ] || echo WRONG ;;
    1) echo WRONG ;;
    77) echo skipped ;;
    124 | 137) echo HUNG ;;
    139) echo CRASHED ;;
    *) echo "ENDED($3)" ;;
    esac
}

# result WHAT ANSWER PROGRAM
result() {
    if [ -z "$2" ]; then
        passed=$((passed + 1))
        return
    fi
    failed=$((failed + 1))
    echo "failed: $1: $2"
    head -n 3 "$3.out" "$3.err" | sed 's/^/    /'
} >&2

# is_refused SOURCE PROGRAM STATUS: a program that a runtime may refuse says so at its head. Then it has to be ended with a
# message.
is_refused() {
    grep -q 'end the program with a message' "$1" && [ -s "$2.err" ] && [ "$3" != 124 ] && [ "$3" != 137 ] && [ "$3" != 139 ]
}

# is_known SOURCE: a program that this library does not serve says so at its head
is_known() {
    head -n 1 "$1" | grep -q 'Not served, see docs/COMPILED.md'
}

# one SOURCE LEVEL THREADS [ROUNDS]: sets `cell`. A long run may take five times as long.
one() {
    program=$work/$(key_of "$1").$2
    [ -z "${4:-}" ] || limit=$((5 * limit))
    run "$program" "$3" ${4:-}
    status=$?
    [ -z "${4:-}" ] || limit=$((limit / 5))
    told=$(answer "$1" "$program" "$status")
    cell=$3
    if [ -n "$told" ] && is_refused "$1" "$program" "$status"; then
        told= cell=$3:refused
    fi
    cell=$cell${told:+:$told}
    [ "$told" = skipped ] && return
    [ -n "$told" ] && is_known "$1" && cell="$3:not served" && return
    result "$(name_of "$1") -O$2, $3 threads${4:+, $4 rounds}" "$told" "$program"
}

# on_libitm SOURCE: sets `cell` by what the compiler's own library gives
on_libitm() {
    own=$lib lib= whole=$limit limit=20 program=$work/$(key_of "$1").0
    run "$program" 4
    cell=$(answer "$1" "$program" $?)
    cell=${cell:-right} lib=$own limit=$whole
}

# row SOURCE: its runs, in a row
row() {
    text="| $(name_of "$1") |"
    for level in $levels; do
        if ! build "$1" "$level"; then
            result "$(name_of "$1") -O$level" 'NOT BUILT' "$work/$(key_of "$1").$level.told"
            text="$text not built |"
            continue
        fi
        for threads in $thread_counts; do
            one "$1" "$level" "$threads"
            text="$text $cell"
        done
        text="$text |"
    done
    if [ "$long" != 0 ] && [ -f "$work/$(key_of "$1").2" ]; then
        one "$1" 2 4 "$long"
        [ "$cell" = 4 ] && cell=right
        text="$text ${cell#4:} |"
    fi
    case $mode:$1 in
    all:*/faults/*)
        cell=
        [ ! -f "$work/$(key_of "$1").0" ] || on_libitm "$1"
        text="$text $cell |"
        ;;
    all:*) text="$text |" ;;
    esac
    echo "$text"
}

head='| Program |' rule='|---|'
for level in $levels; do
    head="$head -O$level |" rule="$rule---|"
done
[ "$long" = 0 ] || { head="$head $long rounds |" rule="$rule---|"; }
[ "$mode" != all ] || { head="$head libitm |" rule="$rule---|"; }
echo "$head"
echo "$rule"
sources >"$work/sources"
while read -r source; do
    row "$source"
done <"$work/sources"

# of plain additions beside transactions none may be lost, in ten runs
if [ "$mode" = all ] && is_wanted neighbours && [ -f "$work/$(key_of "$here/programs/neighbours.c").2" ]; then
    for again in 1 2 3 4 5 6 7 8 9 10; do
        one "$here/programs/neighbours.c" 2 2
    done
fi

# layout FLAG..: a program with its data where a linker puts them by these flags
layout() {
    for name in bank heap_list two_parts; do
        program=$work/layout told=
        if $cc -O2 -fgnu-tm -pthread "$@" -o "$program" "$here/programs/$name.c" 2>"$program.err"; then
            run "$program" 4
            told=$(answer "$here/programs/$name.c" "$program" $?)
        else
            : >"$program.out"
            told='NOT BUILT'
        fi
        result "$name, linked with $*" "$told" "$program"
    done
}
if [ "$mode" = all ] && [ -z "${ONLY:-}" ]; then
    layout -no-pie
    layout -Wl,-z,lazy
    layout -Wl,-z,now
    layout -Wl,-z,norelro
    layout -no-pie -Wl,-z,norelro,-z,lazy
    layout -fdata-sections -Wl,--gc-sections
    layout -mcmodel=medium
    layout -no-pie -mcmodel=medium
fi

# libitm_tests: GCC's own test programs of its runtime, which are not copied here
libitm_tests() {
    source=${LIBITM:-}
    archive=$(ls /usr/src/gcc-12/gcc-12*.tar.xz 2>/dev/null | head -n 1)
    if [ -z "$source" ] && [ -n "$archive" ]; then
        (cd "$work" && tar -xf "$archive" --wildcards '*/libitm/libitm.h' '*/libitm/testsuite/*')
        source=$(ls -d "$work"/gcc-*/libitm)
    fi
    [ -f "$source/libitm.h" ] || { echo 'left out: the test programs of libitm, as the source of GCC 12 is not here' && return; }
    limit=$((5 * limit)) # one of them has three threads that spin
    for file in "$source"/testsuite/libitm.c/*.c; do
        name=$(basename "$file" .c) program=$work/libitm-$(basename "$file" .c)
        $cc -O2 -w -fgnu-tm -pthread -I"$source" -o "$program" "$file" 2>"$program.err" ||
            { : >"$program.out" && result "libitm's $name" 'NOT BUILT' "$program" && continue; }
        run "$program"
        status=$? told=
        # libitm itself ends those of dropped references, and its tests reckon with it
        case $(grep -c 'dg-xfail-run-if' "$file"):$status in
        *:0) ;;
        1:124 | 1:137 | 1:139) told=$status ;;
        1:*) [ -s "$program.err" ] || told=$status ;;
        *) told=$status ;;
        esac
        result "libitm's $name" "$told" "$program"
        echo "libitm's $name: ${told:-as due}"
    done
}
[ "$mode" = few ] || [ -n "${ONLY:-}" ] || libitm_tests

echo "$passed passed, $failed failed"
[ "$failed" = 0 ]

#!/bin/sh
# usage: sh judge/judge.sh PROGRAM.c [THREADS [METHOD|all]]
#
# Compiles a program of C or C++ (.c; .cc, .cpp, .cxx) with `gcc -fgnu-tm`, runs it with each call of its TM runtime
# recorded, and judges the run by `itmrun check`. THREADS, the program's first argument, is a number from 1 on, and 4
# where it is not given. METHOD is one of libitm's: ml_wt, gl_wt, serial, serialirr, serialirr_onwrite, htm; or
# `default`, which names none; `all` takes each in turn but for htm.
#
# Environment:
#   SOURCES   the program's other source files, with spaces between them
#   CC, CXX   the compilers, gcc and g++ where they are not set
#   CFLAGS    for both, -O2 where it is not set
#   LIBS      for the linker, such as -lm
#   RUNTIME   another library with the same entry points, instead of GCC's libitm: METHOD is handed to it unchecked
#   WRITES    `buffered` where RUNTIME keeps what an attempt writes elsewhere up to its commit, as this repository's own
#             does; `in_place`, which is the default, where it is written to memory at once
#   ORDER     how the order of the commits becomes known: `outside` (the default) or `inside`
#   PAUSES    one call in about so many sleeps first, so that attempts meet: 60 where it is not set, 0 for none
#   LIMIT     seconds after which the program is ended: 60 where it is not set
#   CALLS     calls after which it is ended: 2000000 where it is not set, which are judged within a minute or two
#   ARGS      further arguments of the program
#   WORK      a folder for all files, which stay; without it they stay only where a run is not legal
#   ITMRUN    the judge, instead of this repository's own, which is proved and built first where it is not
#
# A line for each run tells program, threads, method and verdict. The exit status is 3 where one is not legal, else 4
# where one is undecided, or legal only up to where a signal, LIMIT or CALLS ended the program, else 1 where there was
# nothing to judge, else 0. README.md tells what each is worth.
set -u
here=$(CDPATH= cd -- "$(dirname -- "$0")" && pwd) || exit 1

stop() {
    echo "judge.sh: $*" >&2
    exit 1
}

wrong_words() {
    echo "judge.sh: $*" >&2
    sed -n '2s/^# //p' "$0" >&2
    exit 1
}

# is_number WORD: a decimal one from 1 on, of at most so many digits that all of the shell compare it
is_number() {
    case $1 in
    '' | 0* | *[!0-9]*) return 1 ;;
    esac
    [ ${#1} -le 18 ]
}

[ $# -ge 1 ] || { sed -n '2,/^set/s/^# \{0,1\}//p' "$0" >&2 && exit 1; }
[ $# -le 3 ] || wrong_words "too many words: $*"
[ -f "$1" ] || wrong_words "there is no file $1"
# a file may be named like an option of the compiler
case $1 in
-*) program=./$1 ;;
*) program=$1 ;;
esac
threads=${2-4} methods=${3-default}
is_number "$threads" && [ "$threads" -le 4096 ] || wrong_words "THREADS is a number from 1 to 4096, and not '$threads'"
runtime=${RUNTIME:-}
if [ -n "$runtime" ]; then
    [ -f "$runtime" ] || stop "there is no $runtime"
    runtime=$(CDPATH= cd -- "$(dirname -- "$runtime")" && pwd)/$(basename "$runtime")
fi
case $methods in
all) methods='ml_wt gl_wt serial serialirr serialirr_onwrite default' ;;
ml_wt | gl_wt | serial | serialirr | serialirr_onwrite | htm | default) ;;
'' | *[!A-Za-z0-9_-]*) wrong_words "METHOD is a name, and not '$methods'" ;;
*) [ -n "$runtime" ] || wrong_words "libitm has no method $methods" ;;
esac
order=${ORDER:-outside}
case $order in
outside | inside) ;;
*) stop "ORDER is outside or inside, and not $order" ;;
esac
writes=${WRITES:-in_place}
case $writes in
in_place | buffered) ;;
*) stop "WRITES is in_place or buffered, and not $writes" ;;
esac
calls=${CALLS:-2000000}
is_number "$calls" || stop "CALLS is a number from 1 on, and not $calls"
command -v python3 >/dev/null || stop 'there is no python3'

case " ${SOURCES:-}" in
*' -'*) stop 'in SOURCES a file whose name begins with - is named as ./-' ;;
esac
for source in "$program" ${SOURCES:-}; do
    [ -f "$source" ] || stop "there is no file $source"
    case $source in
    *.c | *.cc | *.cpp | *.cxx) ;;
    *) stop "a source file ends in .c, .cc, .cpp or .cxx, and not as $source" ;;
    esac
done

# says so where the repository's own judge has to be proved and built first, as the launcher will find too
announce_build() {
    built=$here/../crates/itmrun/out/itmrun
    newer=$built
    [ ! -x "$built" ] || newer=$(find "$here/../crates.txt" "$here"/../crates/*/src "$here"/../crates/*/specs \
        "$here"/../crates/*/proofs -newer "$built" 2>/dev/null | head -n 1)
    [ -z "$newer" ] || echo 'judge.sh: itmrun is proved and built first: some 20 minutes on four processors.' \
        'ITMRUN=PROGRAM takes one that is built' >&2
}

work=${WORK:-}
if [ -z "$work" ]; then
    work=$(mktemp -d) || exit 1
    keep=
    trap '[ -n "$keep" ] || rm -rf "$work"' EXIT
fi
mkdir -p "$work" || exit 1
recorder=$work/recorder.so
# BELOW stands between the recorder and the runtime: a library with planted faults (test.sh)
preload=$recorder${BELOW:+:$BELOW}${runtime:+:$runtime}
case $recorder${BELOW:-}$runtime in
*[[:space:]:]*) stop "the loader takes no space and no colon in WORK, TMPDIR or RUNTIME: $preload" ;;
esac

if [ ! -f "$recorder" ] || [ -n "$(find "$here/recorder" -newer "$recorder")" ]; then
    ${CC:-gcc} -O2 -fPIC -shared -fvisibility=hidden -ftls-model=initial-exec -o "$recorder" "$here"/recorder/*.c ||
        exit 1
fi

# build SOURCE..: each by the compiler of its language; all are linked as C++ where one is
build() {
    linker=${CC:-gcc} number=0
    for source; do
        case $source in
        *.c) compiler=${CC:-gcc} ;;
        *) compiler=${CXX:-g++} linker=${CXX:-g++} ;;
        esac
        number=$((number + 1)) object=$work/$name-$number.o
        $compiler ${CFLAGS:--O2} -g -fgnu-tm -pthread -c -o "$object" "$source" || exit 1
        shift
        set -- "$@" "$object"
    done
    $linker ${CFLAGS:--O2} -g -fgnu-tm -pthread -o "$work/$name" "$@" ${LIBS:-} || exit 1
}

name=$(basename -- "${program%.*}")
build "$program" ${SOURCES:-}

# the repository's own judge may have to be built too
[ -n "${ITMRUN:-}" ] || announce_build
ITMRUN=${ITMRUN:-$here/../itmrun} ITMRUN_PROVED=1
export ITMRUN ITMRUN_PROVED PYTHONDONTWRITEBYTECODE=1
# answers FILE STATUS: whether the judge ends so on this history
answers() {
    "$ITMRUN" check "$1" >/dev/null
    [ $? = "$2" ]
}

# a history with nothing in it, and one whose final byte nobody wrote
printf 'itm-history 1\nmemory 0000000000000000\nfinal 0 0000000000000000\n' >"$work/least.history"
printf 'itm-history 1\nmemory 0000000000000000\nfinal 0 0100000000000000\n' >"$work/wrong.history"
answers "$work/least.history" 0 && answers "$work/wrong.history" 3 || stop "$ITMRUN does not judge"

# run METHOD FILE: the program, recorded in FILE.recording
run() (
    unset ITM_DEFAULT_METHOD
    [ "$1" = default ] || export ITM_DEFAULT_METHOD="$1"
    set -f
    timeout -k 60 "${LIMIT:-60}" env RECORD_TO="$2.recording" RECORD_ORDER="$order" RECORD_CALLS="$calls" \
        RECORD_PAUSES="${PAUSES:-60}" RECORD_WRITES="$writes" LD_PRELOAD="$preload" "$work/$name" "$threads" ${ARGS:-}
)

# tell_end STATUS FILE: how the program ended, and what the recorder has to say
tell_end() {
    case $1 in
    0) ;;
    124) echo "    LIMIT: it had run for ${LIMIT:-60} seconds" ;;
    *) grep -q '^recorder: stopped: CALLS' "$2.err" || echo "    the program ended with status $1" ;;
    esac
    sed -n 's/^recorder: /    /p' "$2.err" | head -n 5
}

# tell_output FILE: where the program's own output is; its errors have the recorder's lines too
tell_output() {
    grep -qv '^recorder: ' "$1.err" && errors=$1.err || errors=
    [ -s "$1.out" ] && output=$1.out || output=$errors errors=
    echo "    the program wrote ${output:-nothing}${errors:+ and $errors}"
}

# judge METHOD: one run, told in a line
judge() {
    file=$work/$name.$threads.$1
    rm -f "$file".*
    run "$1" "$file" >"$file.out" 2>"$file.err"
    went=$?
    if [ -s "$file.recording" ]; then
        told=$(python3 "$here/settle/settle.py" "$file.recording" "$file.history" "$work/$name")
        verdict=$?
    else
        told='nothing to judge: no transaction was recorded' verdict=1
    fi
    printf '%-9s %2s %-17s %s\n' "$name" "$threads" "$1" "${told:-not judged}"
    case $verdict in
    0 | 3 | 4) ;;
    *) verdict=1 ;;
    esac
    tell_end "$went" "$file"
    [ "$verdict" != 1 ] || grep -v '^recorder: ' "$file.err" | sed 's/^/    /'
    [ "$verdict" != 3 ] || tell_output "$file"
    # legal up to where a signal, LIMIT or CALLS ended the program; a large status of its own is no such end
    [ "$verdict" = 0 ] && { [ "$went" = 124 ] || grep -q '^recorder: stopped: ' "$file.err"; } && return 4
    return "$verdict"
}

worst=0
for method in $methods; do
    judge "$method"
    status=$?
    if [ "$status" = 3 ] || { [ "$worst" != 3 ] && [ "$status" -gt "$worst" ]; }; then worst=$status; fi
done
if [ -z "${WORK:-}" ] && [ "$worst" != 0 ]; then
    keep=1
    echo "    the files are in $work"
fi
exit "$worst"

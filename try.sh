#!/bin/sh
# Runs the program itmrun from its sources as they stand, which nothing has proved here: `sh try.sh WORDS`. It answers as
# the proved program does, some 45 seconds later, and a line on standard error says what it is. Its launcher has it run
# itmsteps so, where ITM_PROGRAM says that.
#
# The program is compiled and run by `rt try`: in a folder of its own, with standard input only as far as it comes at once,
# and with lines of rt's own on standard error. So the program gets whole paths, and a file for what is no file; and of
# standard error its own lines are handed on.

stop() {
    echo "$program: $1" >&2
    exit 127
}

program=${ITM_PROGRAM:-itmrun}

here=$(CDPATH= cd -- "$(dirname -- "$0")" && pwd) || exit 127
command -v rt >/dev/null || stop 'the program is not built, and there is no rt on the path'
echo "$program: not proved on this machine yet; this answer is of the unproved sources. sh build.sh proves and builds:" \
    'some 20 minutes on four processors, 40 on two' >&2 || exit 5
work=$(mktemp -d) && work=$(CDPATH= cd -- "$work" && pwd) || stop 'there is no place for temporary files'
trap 'rm -rf "$work"' EXIT
trap 'kill $running 2>/dev/null; wait; exit 143' HUP INT TERM

# find FILE: sets `path` to that by which the program reads what FILE has: of a device, a process's own file or standard
# input, also by links, a copy, of a script no longer than shows that it is too long. Where this cannot be read, there is
# none, so that the program says so itself
find() {
    real=$(readlink -f -- "$1" && echo .) && real=${real%??} || real=
    case $1 in
    -) real=/dev/stdin ;;
    '') real= ;;
    /*) real=${real:-$1} ;;
    *) real=${real:-$PWD/$1} ;;
    esac
    path=$real
    case $real in
    /dev/* | /proc/*)
        path=$work/input
        case $command in
        check) cat -- "$1" ;;
        *) head -c 16777217 -- "$1" ;;
        esac >"$path" 2>/dev/null || rm -f "$path"
        ;;
    esac
}

# the words, with a whole path for each that stands behind the command and is no flag
flags=yes command=
# (of itmsteps each word that is no flag is a file)
[ "$program" = itmrun ] || command=$program
for word; do
    shift
    case $flags$word in
    yes--) flags=no ;;
    yes-?*) ;;
    *) [ -z "$command" ] && command=$word || { find "$word" && word=$path; } ;;
    esac
    set -- "$@" "$word"
done

(cd "$here/crates/$program" && RT_SECONDS=${RT_SECONDS:-86400} exec rt try -- "$@") \
    <"/dev/null" >"$work/output" 2>"$work/errors" &
running=$!
wait "$running"
status=$(sed -n '$s/^run=ended status=\([0-9]*\) .*/\1/p' "$work/errors")
[ -n "$status" ] || { cat "$work/errors" >&2; stop 'the sources could not be run; rt says above why'; }
[ ! -s "$work/output" ] || cat "$work/output" 2>/dev/null || {
    echo "$program: writing failed" >&2
    exit 5
}
sed -n "/^$program: /p" "$work/errors" >&2 || exit 5
exit "$status"

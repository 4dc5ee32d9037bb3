#!/bin/sh
# Proves and builds the program itmrun, or the one that is named, itmsteps, and the libraries below it first: those that do
# not stand on each other side by side, and none that is proved as it stands. RT_JOBS, where it is set, says how many
# processors to take.

stop() {
    echo "$program: $1" >&2
    exit 127
}

program=${1:-itmrun}
case $program in
itmrun) words='sched -' ;;
itmsteps) words=- ;;
*) program=itmrun && stop "there is no such program: $1" ;;
esac

here=$(CDPATH= cd -- "$(dirname -- "$0")" && pwd) || exit
crates=$here/crates
out=$crates/$program/out
# (one for all programs, since they stand on the same libraries)
work=$crates/itmrun/out/below lock=$crates/itmrun/out/building

# the libraries below the program, each with those that it names, a line each: first what the longest chain of crates up
# to the program begins with, by their lines
libraries() {
    while read -r name named; do
        lines=$(cd "$crates/${name%:}" && find src specs proofs -type f -exec cat {} + 2>/dev/null | wc -l)
        echo "$((lines)) ${name%:} $named"
    done <"$here/crates.txt" | awk -v program="$program" '{ row[NR] = $0; crates[$2] }
    END {
        above[program] = 0
        for (n = NR; n > 0; n--) {
            last = split(row[n], it)
            if (!(it[2] in above)) continue
            height = above[it[2]] + it[1]
            named = it[2]
            for (i = 3; i <= last; i++) if (it[i] in crates) {
                named = named " " it[i]
                if (above[it[i]] < height) above[it[i]] = height
            }
            if (it[2] != program) print height, named
        }
    }' | sort -k 1,1nr | cut -d ' ' -f 2-
}

# are_in LIST WORD..: whether each word stands in the list
are_in() {
    list=$1
    shift
    for it; do
        case $list in *" $it "*) ;; *) return 1 ;; esac
    done
}

# is_newest FILE OTHER..: whether the file is there, and nothing in the others is newer
is_newest() {
    [ -f "$1" ] && [ -z "$(find "$here/crates.txt" "$@" -newer "$1" 2>/dev/null | head -n 1)" ]
}

# prove LIBRARY JOBS: in a copy of it and of all that is proved, since rt keeps two checks apart that read the same
# library. What it makes is moved to the library's own folder.
prove() {
    copy=$work/$1 own=$crates/$1/out
    for it in $proved "$1"; do
        mkdir -p "$copy/crates/$it/out"
        for part in src specs proofs out/rlib; do
            from=$crates/$it/$part to=$copy/crates/$it/$part
            [ ! -d "$from" ] || cp -Rl "$from" "$to" 2>/dev/null || { rm -rf "$to" && cp -R "$from" "$to"; }
        done
    done
    awk -v names="$proved$1 " -F '[: ]' 'index(names, " " $1 " ")' "$here/crates.txt" >"$copy/crates.txt"
    [ ! -d "$own/incremental" ] || mv "$own/incremental" "$copy/crates/$1/out"
    sh -c 'echo $$ >"$0/pid" && cd "$0/crates/$1" && exec rt lib --jobs "$2"' "$copy" "$1" "$2" >"$copy/said" 2>&1
    status=$?
    mkdir -p "$own"
    rm -rf "$copy/pid" "$own/rlib"
    mv "$copy/crates/$1/out/"* "$own"
    # (a new file, since other copies of the repository may share the old one)
    [ ! -f "$own/rlib/stamp" ] || { cp "$own/rlib/stamp" "$copy/stamp" && mv "$copy/stamp" "$own/rlib/stamp"; }
    echo "$1 $2 $status" >&3
}

# ends the checks that are still at work, and removes what only a build needs
end() {
    for it in "$work"/*/pid; do
        [ ! -f "$it" ] || kill "$(cat "$it")"
    done
    wait
    rm -rf "$work" "$lock"
}

command -v rt >/dev/null || stop "the program has to be built, and there is no rt on the path"
mkdir -p "$out" "${lock%/*}" && [ -w "$out" ] && [ -w "${lock%/*}" ] || stop "the program has to be built, and its folder cannot be written: $out"
# one build at a time: a second one waits, and then finds all proved
until (set -C && echo $$ >"$lock") 2>/dev/null; do
    sleep 1
    kill -0 "$(cat "$lock" 2>/dev/null)" 2>/dev/null || rm -f "$lock"
done
trap end EXIT
trap 'exit 127' HUP INT TERM
rm -rf "$work"
mkdir "$work" && mkfifo "$work/ended" && exec 3<>"$work/ended" && rm "$work/ended" || stop "$work cannot be made"
libraries >"$work/libraries"
total=$(($(wc -l <"$work/libraries") + 1)) count=0 proved=' '
while read -r name named; do
    are_in "$proved" $named || continue
    set -- "$crates/$name/out/rlib/stamp" "$crates/$name/src" "$crates/$name/specs" "$crates/$name/proofs"
    for it in $named; do set -- "$@" "$crates/$it/out/rlib/stamp"; done
    ! is_newest "$@" || proved="$proved$name " count=$((count + 1))
done <"$work/libraries"
begun=$proved

# a check takes a processor and up to 4 GB
most=${RT_JOBS:-$(awk -v most="$(nproc)" '/^MemAvailable:/ { n = int($2 / 4000000) } END { print n < 1 ? 1 : n < most ? n : most }' /proc/meminfo)}
idle=$most
echo "$program: proving and building the program; from nothing that takes a quarter to half an hour" >&2
while [ "$count" -lt $((total - 1)) ]; do
    first=
    set --
    while read -r name named; do
        are_in "$proved" "$name" || first=${first:-$name}
        are_in "$begun" "$name" || ! are_in "$proved" $named || set -- "$@" "$name"
    done <"$work/libraries"
    # those that can begin share the processors that are idle; what the longest chain waits for takes most of them anyway
    while [ $# -gt 0 ] && { [ "$idle" -gt 0 ] || [ "$1" = "$first" ]; }; do
        jobs=$((idle > $# ? idle / $# : 1))
        [ "$1" != "$first" ] || [ "$jobs" -eq "$most" ] || jobs=$((most - most / 4))
        prove "$1" "$jobs" &
        begun="$begun$1 " idle=$((idle - jobs))
        shift
    done
    read -r name jobs status <&3
    [ "$status" = 0 ] || { cat "$work/$name/said" >&2; stop "the library $name could not be proved; rt says above why"; }
    rm -rf "${work:?}/$name"
    proved="$proved$name " idle=$((idle + jobs)) count=$((count + 1))
    echo "$program: proved $count of $total: $name" >&2
done
# (what is edited from here on is newer than the program)
: >"$work/begun"
(cd "$crates/$program" && printf '.memory 8\n.thread\n' | rt run --jobs "$most" -- $words) >"$work/said" 2>&1 ||
    { cat "$work/said" >&2; stop "the program could not be proved and built; rt says above why"; }
touch -r "$work/begun" "$out/$program" || stop "the program was built, and cannot be marked as current: $out/$program"
echo "$program: proved $total of $total: $program" >&2

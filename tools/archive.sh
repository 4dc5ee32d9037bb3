#!/bin/sh
# usage: sh tools/archive.sh CRATE
#
# Proves the crate, a static library, and builds crates/CRATE/out/libCRATE.a over the libraries below it as `rt ci` has left
# them. `rt lib` builds these anew, since they have what the crates above them cite and no more. Where one of them is not
# there so, or is older than its sources, nothing is done, and the status is 3. RT_JOBS says how many processors to take.
set -u
here=$(CDPATH= cd -- "$(dirname -- "$0")/.." && pwd) || exit 1
crate=$1 crates=$here/crates
kit=$(dirname -- "$(rt doc)") || exit 1

# a line `NAME: LIBRARY ..` of crates.txt without what stands before its colon
named_by() {
    sed -n "s/^$1\( [^:]*\)\{0,1\}://p" "$here/crates.txt"
}

# the crates of the repository that the crate stands on
below() {
    for it in $(named_by "$1"); do
        [ ! -d "$crates/$it" ] || { (below "$it") && echo "$it"; }
    done
}

set -- --crate-name "$crate" --crate-type staticlib --extern "std=$kit/rlibs/std.rlib" -L "dependency=$kit/rlibs"
for it in $(named_by "$crate"); do
    if [ -d "$crates/$it" ]; then
        set -- "$@" --extern "$it=$crates/$it/out/rlib/$it.rlib"
    else
        set -- "$@" --extern "$it=$kit/rlibs/$it.rlib"
    fi
done
for it in $(below "$crate" | sort -u); do
    rlib=$crates/$it/out/rlib
    [ -d "$rlib/$it.rlib" ] && [ ! -e "$rlib/stamp" ] || exit 3
    newer=$(find "$here/crates.txt" "$crates/$it/src" "$crates/$it/specs" "$crates/$it/proofs" -newer "$rlib/$it.rlib" 2>/dev/null | head -n 1)
    [ -z "$newer" ] || exit 3
    set -- "$@" -L "dependency=$rlib"
done
cd "$crates/$crate" && mkdir -p out &&
    "$kit/bin/rattle" build "$@" --antt-project "$kit/rattle/logic/antt-project.json" --logic-built "$kit/logic_built" \
        --links "$crate=" --jobs "${RT_JOBS:-$(nproc)}" --toolchain "$kit/toolchain" -o "out/lib$crate.a" src/lib.rt

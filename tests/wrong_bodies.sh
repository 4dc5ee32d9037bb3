#!/bin/sh
# Tries the wrong bodies that the gate leaves out, in a copy: sh tests/wrong_bodies.sh CRATE..
# Each crate keeps them in wrong-bodies/, in the form of those in must-fail/. The prover has to refuse each.
set -e
top=$(cd "$(dirname "$0")/.." && pwd)
[ $# -gt 0 ] || { echo "usage: sh tests/wrong_bodies.sh CRATE.." >&2; exit 2; }
for name in "$@"; do
    [ -d "$top/crates/$name/wrong-bodies" ] || { echo "$name has no wrong-bodies/" >&2; exit 2; }
done
work=$(mktemp -d)
trap 'rm -rf "$work"' EXIT
cp -a "$top" "$work/copy"
cd "$work/copy"
for name in "$@"; do
    mkdir -p "crates/$name/must-fail"
    rm -f "crates/$name/must-fail/"*.edit
    cp "crates/$name/wrong-bodies/"*.edit "crates/$name/must-fail/"
done
rt must-fail "$@"

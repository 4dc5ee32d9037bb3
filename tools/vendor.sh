#!/bin/sh
# Copies the crates that a program needs into its own repository: `sh tools/vendor.sh DEST [CRATE..]`. With no crate named,
# those that programs name first: itm_runtime, transactions, typed_cells and tx_threads. Below each it takes all that it stands on.
#
# A crate's must-fail edits and wrong bodies stay here, where the gate tries them. HANDLES is written where there is none,
# and a line of crates.txt where it lacks the crate. A crate that is there already is replaced, and nothing else is changed.

stop() {
    echo "vendor: $1" >&2
    exit 1
}

[ $# -gt 0 ] || stop 'usage: sh tools/vendor.sh DEST [CRATE..]'
here=$(CDPATH= cd -- "$(dirname -- "$0")/.." && pwd) || exit
dest=$1
shift
mkdir -p -- "$dest/crates" && dest=$(CDPATH= cd -- "$dest" && pwd) || stop 'there is no such place'
[ "$dest" != "$here" ] || stop 'that is this repository'
[ $# -gt 0 ] || set -- itm_runtime transactions typed_cells tx_threads

# below CRATE..: the lines of crates.txt of these and of all that they stand on, in their order
below() {
    awk -v wanted="$*" '
    { line[NR] = $0; name = $1; sub(/:$/, "", name); names[NR] = name; row[name] = NR }
    END {
        count = split(wanted, next_one, " ")
        while (count > 0) {
            name = next_one[count--]
            if (!(name in row)) { print name > "/dev/stderr"; exit 1 }
            if (taken[row[name]]++) continue
            said = line[row[name]]
            sub(/^[^:]*:/, "", said)
            uses = split(said, use, " ")
            for (n = 1; n <= uses; n++) if (use[n] in row) next_one[++count] = use[n]
        }
        for (n = 1; n <= NR; n++) if (taken[n]) print line[n]
    }' "$here/crates.txt"
}

lines=$(below "$@") || stop 'crates.txt has no such crate'

handles=$(cat "$here/HANDLES")
if [ ! -e "$dest/HANDLES" ]; then
    echo "$handles" >"$dest/HANDLES" || exit
    echo "HANDLES: $handles"
elif [ "$(cat "$dest/HANDLES")" != "$handles" ]; then
    echo "HANDLES is left as it is; the crates were proved under: $handles"
fi

if [ ! -e "$dest/.gitignore" ]; then
    echo out/ >"$dest/.gitignore" || exit
    echo '.gitignore: out/'
fi

touch "$dest/crates.txt" || exit
echo "$lines" | while read -r line; do
    crate=${line%%[ :]*}
    rm -rf "$dest/crates/$crate.new"
    mkdir "$dest/crates/$crate.new" || exit
    for part in src specs proofs; do
        [ ! -d "$here/crates/$crate/$part" ] || cp -R "$here/crates/$crate/$part" "$dest/crates/$crate.new/" || exit
    done
    # (what checks there have kept serves on, as far as the crate is the same)
    for part in src specs proofs; do
        rm -rf "$dest/crates/$crate/$part"
    done
    mkdir -p "$dest/crates/$crate"
    mv "$dest/crates/$crate.new"/* "$dest/crates/$crate/" && rmdir "$dest/crates/$crate.new" || exit
    if grep -q "^$crate[ :]" "$dest/crates.txt"; then
        grep -qxF "$line" "$dest/crates.txt" || echo "crates.txt: the line of $crate is left as it is; it was: $line"
    else
        echo "$line" >>"$dest/crates.txt" || exit
    fi
    echo "crates/$crate"
done || exit
echo "$(echo "$lines" | wc -l) crates are in $dest; a program names those that its code names, in its line of crates.txt"

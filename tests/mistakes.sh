# The table of mistakes in docs/SCRIPTS.md, row by row: what is wrong is refused as it is told there, and what is right is
# a script. It is read by scripts.sh, and uses its functions.

# script CELL: the script of a cell, whose spans are its lines, behind those that it has unless it says them itself
script() {
    case $1 in
    'an empty text') return ;;
    'a byte order mark, then '*) printf '\357\273\277' ;;
    esac
    case $1 in
    *'`.memory '*) ;;
    *) printf '.memory 8\n.thread\n' ;;
    esac
    printf '%s\n' "$1" | grep -o '`[^`]*`' | tr -d '`'
}

sed -n '/^### Mistakes$/,/^## /p' "$root/docs/SCRIPTS.md" | grep '^|' | sed 1,2d >"$work/mistakes"
sed -n 's/^| \([^|]*\) | `\(line [0-9]*: [a-z ]*\)` | \([^|]*\) |$/\1|\2|\3/p' "$work/mistakes" >"$work/rows"
while IFS='|' read -r wrong fault right; do
    script "$wrong" >"$work/input"
    refused "the mistake $wrong" "$fault"
    script "$right" >"$work/input"
    run asm -
    cp "$work/output" "$work/want_output"
    : >"$work/want_errors"
    check "what is right: $right" 0
done <"$work/rows"
printf '%s\n' "$(($(wc -l <"$work/mistakes")))" 16 >"$work/want_output"
printf '%s\n' "$(($(wc -l <"$work/rows")))" 16 >"$work/output"
: >"$work/errors"
status=0
check 'each row of the table of mistakes' 0

# How tests/command.sh has a history judged by `itmrun check`. It is read by that script, and uses its functions and variables.

# judge NAME ANSWER: the history in $work/input. The answer is `legal`, `bad LINE KIND`, or a fault as `line N: TEXT`.
judge() {
    case $2 in
    line*)
        want_line "itmrun: $2"
        wanted=2
        ;;
    *)
        printf '%s\n' "$2" >"$work/want_output"
        : >"$work/want_errors"
        if [ "$2" = legal ]; then wanted=0; else wanted=3; fi
        ;;
    esac
    run check -
    check "$1" "$wanted"
}

# judge_each BASE: of each line `NUMBER|TEXT|ANSWER` of the input, the history of this file with this text as that line
judge_each() {
    while IFS='|' read -r number text answer; do
        awk -v number="$number" -v text="$text" 'NR == number { $0 = text } { print }' "$1" >"$work/input"
        judge "$(basename "$1") with line $number: $text" "$answer"
    done
}

# judge_cuts BASE: each proper beginning of the history of this file, which is cut where it ends
judge_cuts() {
    size=$(($(wc -c <"$1")))
    length=0
    while [ "$length" -lt "$size" ]; do
        head -c "$length" "$1" >"$work/input"
        judge "$(basename "$1"), the first $length bytes" "line $(($(wc -l <"$work/input") + 1)): cut"
        length=$((length + 1))
    done
}

# judge_edited BASE: of each line `COMMANDS|ANSWER` of the input, the history of this file after these commands of sed
judge_edited() {
    while IFS='|' read -r commands answer; do
        sed "$commands" "$1" >"$work/input"
        judge "$(basename "$1") with $commands" "$answer"
    done
}

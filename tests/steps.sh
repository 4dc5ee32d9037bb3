# The part of tests/command.sh on the program itmsteps: its tables and pictures of the scripts in examples/ and tests/rows/, and
# of their histories, those in README.md and docs/, and its words. It is read by that script, and uses its functions and variables.
#
# They are those of the tests' own model (tests/soak/table.py, picture.py, attempts.py). Apart from that, a table has as many lines
# of events as it counts, and its last clock is the history's; a picture of a history has a bar for each attempt, and the verdict.

steps() {
    "$root/itmsteps" "$@" <"$work/input" >"$work/output" 2>"$work/errors"
    status=$?
}

# builds the program, if it has to be, before its standard error is looked at
"$root/itmsteps" "$root/examples/counter.itm" >/dev/null || exit 1

: >"$work/input"
for script in "$root"/examples/*.itm "$root"/tests/rows/*.itm; do
    name=$(basename "$script")
    cat "${script%.itm}.errors" >"$work/want_errors" 2>/dev/null
    steps "$script"
    case $(cat "$work/want_errors") in
    'itmrun: line '*)
        : >"$work/want_output"
        sed -i 's/^itmrun/itmsteps/' "$work/want_errors"
        check "the steps of $name" 2
        continue
        ;;
    esac
    # (who gave up or found no memory is told in the table)
    : >"$work/want_errors"
    python3 -B "$root/tests/soak/table.py" "$script" >"$work/want_output"
    check "the steps of $name" 0
    cp "$work/output" "$work/table"
    python3 -B "$root/tests/soak/picture.py" "$script" >"$work/want_output"
    steps --svg "$script"
    check "the picture of $name" 0
    counted=$(awk -F ' [|] ' 'NR > 1 { lines++; last = $1 + 0 } END { print lines + 0, last + 0 }' "$work/table")
    clocks=$(awk -F ' [|] ' 'NR == 1 { columns = NF } NR > 1 { clock = $columns } END { print clock + 0 }' "$work/table")
    final=$(sed -n 's/^final \([0-9]*\) .*/\1/p' "${script%.itm}.history")
    if [ "${counted% *}" = "${counted#* }" ] && [ "$clocks" = "$final" ]; then
        passed=$((passed + 1))
    else
        failed=$((failed + 1))
        echo "failed: the steps of $name: lines and last number $counted, clock $clocks, wanted $final"
    fi
done

# table PAGE WORD..: the table of a page is what itmsteps prints
table() {
    page=$1
    shift
    awk '/^```/ { inside = 0 } /^event  thread / { inside = 1 } inside { print }' "$root/$page" >"$work/want_output"
    : >"$work/want_errors"
    steps "$@"
    check "the table of $page" 0
}

table README.md --from 9 --to 12 "$root/examples/lost_update.itm"
table docs/STEPS.md --to 12 "$root/examples/lost_update.itm"

for picture in "$root"/docs/pictures/*.svg; do
    name=$(basename "$picture" .svg)
    cp "$picture" "$work/want_output"
    steps --svg "$root/examples/$name.itm"
    check "the picture of $name in docs/" 0
done

# drawn NAME FILE: the picture of a history is the model's, with a bar for each attempt, and a mark where one is wrong
drawn() {
    python3 -B "$root/tests/soak/attempts.py" "$2" >"$work/want_output"
    : >"$work/want_errors"
    steps --history --svg "$2"
    check "$1" 0
    bars=$(grep -c '<title>attempt ' "$work/output")
    marks=$(grep -c 'class="bad"' "$work/output")
    attempts=$(grep -c '^attempt ' "$2")
    if [ "$bars" = "$attempts" ] && [ "$marks" = "${3:-0}" ]; then
        passed=$((passed + 1))
    else
        failed=$((failed + 1))
        echo "failed: $1: $bars bars and $marks marks for $attempts attempts"
    fi
}

for history in "$root"/examples/*.history "$root"/tests/rows/*.history; do
    wrong=0
    [ "$(basename "$history")" = lost.history ] && wrong=1 # the one that is not legal
    drawn "the attempts of $(basename "$history")" "$history" "$wrong"
done

# (of version 3; one that ran again, from an arena)
cat >"$work/two" <<'END'
itm-history 3
depth 2
memory 0000000000000000
attempt 40 1 1 conflict -
arena 00ff
call _ITM_beginTransaction - = code 5
restart 0100
undone 7 1
call ld1 0 = 01
call _ITM_RU1 0 = 01
call _ITM_beginTransaction - = refused 8
end
attempt 3 2 0 committed -
arena -
call _ITM_WU1 0 01 = ok
call _ITM_commitTransaction = ok
end
attempt 3 1 0 readonly -
arena -
call _ITM_RU8 0 = 0000000000000000
call _ITM_commitTransaction = ok
end
final 2 0100000000000000
END
drawn 'two threads, one that ran again' "$work/two"

# flawed N LINE MARKS: with line N in place of its own, as many attempts are marked, and the picture has the verdict
flawed() {
    sed "$1s/.*/$2/" "$work/two" >"$work/flawed"
    drawn "line $1 is $2" "$work/flawed" "$3"
    verdict=$("$root/itmrun" check "$work/flawed")
    if grep -q ">$verdict[:<]" "$work/output"; then
        passed=$((passed + 1))
    else
        failed=$((failed + 1))
        echo "failed: line $1 is $2: no verdict $verdict"
    fi
}

flawed 10 'call _ITM_RU1 0 = 02' 1
flawed 9 'call ld1 0 = 00' 1
flawed 11 'call _ITM_beginTransaction - = code 5' 1
flawed 20 'call _ITM_RU8 0 = 0100000000000000' 1
flawed 18 'attempt 3 1 0 committed -' 1
flawed 4 'attempt 40 1 2 conflict -' 1
flawed 18 'attempt 3 1 0 cancelled -' 1
flawed 23 'final 4 0100000000000000' 0

cp "$work/two" "$work/input"
python3 -B "$root/tests/soak/attempts.py" "$work/two" >"$work/want_output"
steps --svg --history -
check 'a history that is the input' 0
: >"$work/input"

: >"$work/want_output"
sed '10s/.*/call _ITM_RU1 x = 02/' "$work/two" >"$work/flawed"
want_line 'itmsteps: line 10: bad line'
steps --history --svg "$work/flawed"
check 'a text that is no history' 2
want_line 'itmsteps: line 1: bad header'
steps --history --svg "$root/examples/bank.itm"
check 'a script that is drawn as a history' 2

# the options, also behind the file, and in one word with their values
python3 -B "$root/tests/soak/table.py" "$root/examples/bank.itm" 2,0 5 20 >"$work/want_output"
: >"$work/want_errors"
steps --threads 2,0 --from 5 --to 20 "$root/examples/bank.itm"
check 'two threads, and a part of the events' 0
steps "$root/examples/bank.itm" --to=20 --from=5 --threads=2,0
check 'options behind the file' 0
cp "$root/examples/bank.itm" "$work/input"
steps --from 5 --threads 2,0 --to 20 -
check 'the input' 0
python3 -B "$root/tests/soak/picture.py" "$root/examples/bank.itm" 2,0 5 20 >"$work/want_output"
steps --svg --from 5 --threads 2,0 --to 20 -
check 'a picture of the input' 0
: >"$work/input"

usage='itmsteps: usage: itmsteps [--threads N,N..] [--from N] [--to N] [--svg] FILE, or itmsteps --history --svg FILE'
want_line "$usage"
steps
check 'no file' 1
steps a b
check 'two files' 1
steps --threads
check 'an option without its value' 1
steps --threads 0,x "$root/examples/bank.itm"
check 'a thread that is no number' 1
steps --threads 0, "$root/examples/bank.itm"
check 'a thread that is missing' 1
steps --from -1 "$root/examples/bank.itm"
check 'a number below zero' 1
steps --loud "$root/examples/bank.itm"
check 'no such option' 1
steps --history "$root/examples/bank.history"
check 'a history with no picture' 1
steps --history --svg --from 1 "$root/examples/bank.history"
check 'a part of a history' 1
want_line 'itmsteps: reading failed'
steps --history --svg "$work/none"
check 'a history that is not there' 5
steps "$work/none"
check 'a file that is not there' 5

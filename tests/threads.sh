# The part of tests/command.sh on scripts that are run on threads of their own. It is read by that script, and uses its
# functions and variables.

# is NAME FOUND WANTED: the two have to be the same
is() {
    if [ "$2" = "$3" ]; then
        passed=$((passed + 1))
    else
        failed=$((failed + 1))
        echo "failed: $1: $2, wanted $3"
    fi
}

# counters THREADS TIMES: a script of so many threads, each of which adds one to the same word so often. So many tries are
# not used up while a thread that holds the clock is put aside.
counters() {
    printf '.memory 8\n.patience 1000\n.retries 10000\n.thread %s\n.rept %s\n' "$1" "$2"
    tail -n 6 "$root/examples/counter.itm"
    echo .endr
}

# is_history NAME COUNT: the last output is a legal history, whose attempts stand by thread; so many of them committed, and
# the clock is twice that
is_history() {
    is "$1: its verdict" "$("$program" check - <"$work/output" 2>&1)" legal
    sed -n 's/^attempt \([0-9]*\) .*/\1/p' "$work/output" >"$work/threads"
    is "$1: by thread" "$(sort -n "$work/threads" | cmp - "$work/threads" 2>&1)" ''
    is "$1: its commits" "$(grep -c '^attempt .* committed ' "$work/output")" "$2"
    is "$1: its clock" "$(sed -n 's/^final \([0-9]*\) .*/\1/p' "$work/output")" "$((2 * $2))"
}

# on_threads NAME COUNT: runs $work/input on threads, which all finish, with so many commits
on_threads() {
    run threads -
    cp "$work/output" "$work/want_output"
    : >"$work/want_errors"
    check "$1" 0
    is_history "$1" "$2"
}

# A script with one thread and no schedule leaves on a thread what it leaves alone.
for script in "$root"/examples/*.itm "$root"/tests/rows/*.itm; do
    grep -q '^\.schedule' "$script" && continue
    [ "$(grep '^\.thread' "$script")" = .thread ] || continue
    cat "${script%.itm}.history" >"$work/want_output" 2>/dev/null
    cat "${script%.itm}.errors" >"$work/want_errors" 2>/dev/null
    case $(cat "$work/want_errors") in
    '') wanted=0 ;;
    'itmrun: line '*) wanted=2 ;;
    *) wanted=4 ;;
    esac
    run threads "$script"
    check "$(basename "$script") on a thread" "$wanted"
done

# a schedule is not followed
{
    echo '.memory 8'
    echo '.schedule 0x1'
    tail -n 7 "$root/examples/counter.itm"
} >"$work/input"
cp "$root/examples/counter.history" "$work/want_output"
: >"$work/want_errors"
run threads -
check 'a schedule on threads' 0

# two threads that add to one word, again and again
counters 2 1 >"$work/input"
i=0
while [ "$i" -lt 100 ]; do
    on_threads "two counters, run $i" 2
    i=$((i + 1))
done

# threads that meet: four counters of a thousand, whose last word is the sum
counters 4 1000 >"$work/input"
on_threads 'four counters' 4000
is 'four counters: their sum' "$(tail -n 1 "$work/output")" 'final 8000 a00f000000000000'

# two counters, each of two threads
{
    printf '.memory 16\n.patience 1000\n.retries 10000\n'
    for place in 0 8; do
        printf '.thread 2\n.rept 1000\n'
        tail -n 6 "$root/examples/counter.itm" | sed "s/8 r2 0/8 r2 $place/; s/8 0 r2/8 $place r2/"
        echo .endr
    done
} >"$work/input"
on_threads 'two counters' 4000
is 'two counters: their sums' "$(tail -n 1 "$work/output")" 'final 8000 d007000000000000d007000000000000'

# transfers THREADS: each of so many threads moves one between two of 1,024 words, which have 1,000 each, 300 times
transfers() {
    awk -v threads="$1" 'BEGIN {
        srand(5)
        printf ".memory 8192\n.patience 1000\n.retries 10000\n.init 0 "
        for (n = 0; n < 1024; n++) printf "e803000000000000"
        printf "\n"
        while (threads--) {
            printf ".thread\nset r1 1\n"
            for (n = 0; n < 300; n++) {
                from = int(1024 * rand())
                to = (from + 1 + int(1023 * rand())) % 1024
                printf "_ITM_beginTransaction r0 -\n_ITM_RU8 r2 %d\nsub r2 r2 r1\n_ITM_WU8 %d r2\n", 8 * from, 8 * from
                printf "_ITM_RU8 r2 %d\nadd r2 r2 r1\n_ITM_WU8 %d r2\n_ITM_commitTransaction\n", 8 * to, 8 * to
            }
        }
    }'
}

# sum of the words, each below 65,536, that the last line has
sum() {
    tail -n 1 "$work/output" | sed 's/^final [0-9]* //; s/\(....\)0\{12\}/\1 /g' | awk '{
        digits = "0123456789abcdef"
        for (n = 1; n <= NF; n++) {
            word = 0
            for (k = 1; k <= 4; k++) {
                value = index(digits, substr($n, k, 1)) - 1
                word += value * (k == 1 ? 16 : k == 2 ? 1 : k == 3 ? 4096 : 256)
            }
            all += word
        }
        print NF, all
    }'
}
for threads in 2 4; do
    transfers "$threads" >"$work/input"
    on_threads "transfers of $threads threads" "$((300 * threads))"
    is "transfers of $threads threads: their sum" "$(sum)" '1024 1024000'
done

# inner blocks that may run again alone: each reads the word that others have changed, and then another one, so that the change
# shows within the block
{
    printf '.memory 16\n.patience 1000\n.retries 10000\n.restarts 100\n.thread 4\nset r1 1\n.rept 1000\n'
    printf '_ITM_beginTransaction r0 -\n_ITM_beginTransaction r3 -\n_ITM_RU8 r2 0\n_ITM_RU8 r4 8\n'
    printf 'add r2 r2 r1\n_ITM_WU8 0 r2\n_ITM_commitTransaction\n_ITM_commitTransaction\n.endr\n'
} >"$work/input"
on_threads 'inner blocks that may run again' 4000
is 'inner blocks that may run again: their version' "$(head -n 1 "$work/output")" 'itm-history 2'
is 'inner blocks that may run again: their sum' "$(tail -n 1 "$work/output")" "final 8000 a00f000000000000$(printf '%016d' 0)"

# as many threads as may be
counters 64 1 >"$work/input"
on_threads 'as many threads as may be' 64
is 'as many threads as may be: their version' "$(head -n 1 "$work/output")" 'itm-history 3'

# as many open blocks as may be
grep -v '^\.schedule' "$root/tests/rows/sixty_five_begins.itm" >"$work/input"
cp "$root/tests/rows/sixty_five_begins.history" "$work/want_output"
: >"$work/want_errors"
run threads -
check 'as many open blocks as may be' 0

# threads within so much address space: it is too little for the stacks of 32 threads, or for anything, or enough. Without
# all threads nothing is written.
counters 32 1 >"$work/input"
refused=0
for size in 30000 60000 120000 240000 480000; do
    (ulimit -v "$size" && exec "$root/crates/itmrun/out/itmrun" threads -) <"$work/input" >"$work/output" 2>"$work/errors"
    status=$?
    said=$(cat "$work/errors")
    case $said in
    'itmrun: no thread' | 'itmrun: no memory')
        [ "$said" = 'itmrun: no memory' ] || refused=$((refused + 1))
        want_line "$said"
        check "threads within $size kilobytes" 4
        ;;
    *)
        is "threads within $size kilobytes" "$status$said $("$program" check - <"$work/output" 2>&1)" '0 legal'
        ;;
    esac
done
is 'some thread is refused' "$((refused > 0))" 1

# four threads that share one word and have one each
cp "$root/examples/side_by_side.itm" "$work/input"
on_threads 'side by side' 20
is 'side by side: its end' "$(tail -n 1 "$work/output")" "$(tail -n 1 "$root/examples/side_by_side.history")"

# transfers keep their sum
{
    printf '.patience 1000\n.retries 10000\n'
    grep -v -e '^\.schedule' -e '^\.retries' "$root/examples/bank.itm"
} >"$work/input"
on_threads 'transfers' 4
is 'transfers: their end' "$(tail -n 1 "$work/output")" "final 8 $(printf '%s00000000000000' 64 64 64 64)"

# one commit for four threads: three of them give up
{
    echo '.commits 1'
    counters 4 1
} >"$work/input"
run threads -
is 'one commit for four threads: its status' "$status" 4
gave_up=$(grep -c '^itmrun: thread [0-3] gave up$' "$work/errors")
is 'one commit for four threads: who gives up' "$gave_up of $(wc -l <"$work/errors")" '3 of 3'
is 'one commit for four threads: by number' "$(sort "$work/errors" | cmp - "$work/errors" 2>&1)" ''
is_history 'one commit for four threads' 1

# what is said where there is no run
want_line 'itmrun: line 2: misplaced'
printf '.memory 8\n.rept 2\n' >"$work/input"
run threads -
check 'threads of a script that is refused' 2
want_line 'itmrun: writing failed'
: >"$work/output"
"$program" threads "$root/examples/counter.itm" >&- 2>"$work/errors"
status=$?
check 'closed output of threads' 5
if [ -w /dev/full ]; then
    "$program" threads "$root/examples/counter.itm" >/dev/full 2>"$work/errors"
    status=$?
    check 'full output of threads' 5
fi

# The part of tests/command.sh on output that goes to pipes, and to devices and files that are full: when it comes there,
# and what is done once a write has failed. It is read by that script, and uses its functions and variables.

mkfifo "$work/pipe" || exit 1

# a pipe that nobody reads any more
want_line 'itmrun: writing failed'
: >"$work/output"
for command in asm sched threads check; do
    file=$root/examples/counter.itm
    [ "$command" != check ] || file=$root/examples/counter.history
    : <"$work/pipe" &
    exec 3>"$work/pipe"
    wait $!
    "$program" "$command" "$file" >&3 3>&- 2>"$work/errors"
    status=$?
    exec 3>&-
    check "$command to a pipe that nobody reads" 5
done

# movers COUNTERS THREADS BLOCKS MOVES: a thread of so many counters, and then so many threads, each with so many blocks
# of so many moves. In the largest memory a move takes 16,382 steps, since the blocks are irrevocable.
movers() {
    printf '.thread\n.rept %s\n' "$1"
    tail -n 6 "$root/examples/counter.itm"
    printf '.endr\n.thread %s\n.rept %s\n_ITM_beginTransaction r0 pr_doesGoIrrevocable\n' "$2" "$3"
    printf '.rept %s\n_ITM_memmoveRtWt 0 8 65528\n.endr\n_ITM_commitTransaction\n.endr\n' "$4"
}

# the history of a counter in that memory, up to the end of its block
awk 'NR == 2 {
    for (n = 0; n < 8192; n++) rest = rest "0000000000000000"
    $0 = "memory " rest
}
NR <= 8' "$root/examples/counter.history" >"$work/counted"

# A block is read as soon as it has ended: a thousand million steps follow it here, and no block ends in them.
{
    echo .memory 65536
    awk 'BEGIN { for (n = 0; n < 1000; n++) print ".schedule " (n ? "1x1000000" : "0!") }'
    movers 1 1 1 65000
} >"$work/input"
cp "$work/counted" "$work/want_output"
: >"$work/want_errors"
"$program" sched - <"$work/input" >"$work/pipe" 2>"$work/errors" &
run=$!
timeout 30 head -n 8 <"$work/pipe" >"$work/output"
sleep 1
kill "$run" 2>/dev/null
wait "$run" 2>/dev/null
status=$?
check 'a block that is read before the run has ended' 143

# Once nobody reads any more, a run ends with the next block. This one has sixteen thousand million steps in all, and some
# thirty thousand a block.
{
    echo .memory 65536
    movers 1 31 16000 2
} >"$work/input"

# begin WORD..: the program on $work/input, of whose output the first eight lines are read
begin() {
    {
        timeout 30 "$program" "$@" - <"$work/input" 2>"$work/errors"
        echo $? >"$work/status"
    } | head -n 8 >"$work/output"
    status=$(cat "$work/status")
}
echo 'itmrun: writing failed' >"$work/want_errors"
begin sched
check 'a run of which eight lines are read' 5
: >"$work/want_output"
: >"$work/output"
if [ -w /dev/full ]; then
    timeout 30 "$program" sched - <"$work/input" >/dev/full 2>"$work/errors"
    status=$?
    check 'full output before a long run' 5
fi
{
    echo .memory 65536
    movers 600 31 15000 2
} >"$work/input"
awk 'function word(n) { return sprintf("%02x%02x000000000000", n % 256, int(n / 256)) }
{ print }
END {
    for (n = 1; n < 600; n++)
        print "attempt 0 1 " n " committed -\narena -\ncall _ITM_RU8 0 = " word(n) "\ncall _ITM_WU8 0 " word(n + 1) \
            " = ok\ncall _ITM_commitTransaction = ok\nend"
}' "$work/counted" >"$work/whole"
head -c 204800 "$work/whole" >"$work/want_output"
(trap '' XFSZ && ulimit -f 400 && exec timeout 30 "$program" sched - <"$work/input" >"$work/output" 2>"$work/errors")
status=$?
check 'output that is full before a long run has ended' 5

# longer output than a pipe holds, of which eight lines are read
awk 'BEGIN {
    print ".memory 65536\n.arena 0\n.patience 8\n.retries 100\n.commits 4611686018427387903\n.thread\nset r1 1"
    print "_ITM_beginTransaction r0 -"
}' >"$work/want_output"
begin asm
check 'a script of which eight lines are read' 5
{
    printf '.memory 65536\n.thread\n.rept 10000\n'
    tail -n 6 "$root/examples/counter.itm"
    echo .endr
} >"$work/input"
cp "$work/counted" "$work/want_output"
begin threads
check 'a history of threads of which eight lines are read' 5

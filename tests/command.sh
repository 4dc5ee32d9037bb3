#!/bin/sh
# Runs the built program as a process: its words, files, standard streams and exit status.
# The last line is "N passed, M failed"; the exit status is 0 where none failed.

root=$(CDPATH= cd -- "$(dirname -- "$0")/.." && pwd) || exit 1
program=$root/itmrun
export ITMRUN_PROVED=1
work=$(mktemp -d) || exit 1
trap 'rm -rf "$work"' EXIT
passed=0
failed=0

# check NAME STATUS: the last run's status, and its output and errors against $work/want_output and $work/want_errors
check() {
    if [ "$status" = "$2" ] && cmp -s "$work/output" "$work/want_output" && cmp -s "$work/errors" "$work/want_errors"; then
        passed=$((passed + 1))
    else
        failed=$((failed + 1))
        echo "failed: $1: status $status, wanted $2"
        diff "$work/want_output" "$work/output"
        diff "$work/want_errors" "$work/errors"
    fi
}

# run WORD..: the program on $work/input
run() {
    "$program" "$@" <"$work/input" >"$work/output" 2>"$work/errors"
    status=$?
}

# want_line LINE: no output, and this line on the errors
want_line() {
    : >"$work/want_output"
    printf '%s\n' "$1" >"$work/want_errors"
}

# builds the program, if it has to be, before its standard error is looked at
"$program" sched "$root/examples/counter.itm" >/dev/null || exit 1

# What needs no file of this script's runs beside all that follows, and is counted at the end: start NAME WORD..
mkdir "$work/beside" || exit 1
start() {
    name=$1
    shift
    "$@" >"$work/beside/$name" 2>&1 &
}
# part NAME..: parts of this script that stand in files of their own, in a folder of their own
part() {
    work=$(mktemp -d) || exit 1
    trap 'rm -rf "$work"' EXIT
    passed=0 failed=0
    for file; do . "$root/tests/$file.sh"; done
    echo "$passed passed, $failed failed"
}
start 'the steps of runs' part steps
start 'histories' part judging histories versions restarts
start 'bodies that only tests refuse' sh "$root/tests/planted.sh"
start 'memory refused to engines' env SCRIPTS=few sh "$root/tests/sweeps.sh" engines
start 'compiled programs' sh "$root/compiled/test.sh" few
start 'memory refused to each script' env JOBS=2 SCRIPTS=few sh "$root/tests/sweeps.sh" sched
start 'what is refused or cut off' env JOBS=2 SCRIPTS=few sh "$root/tests/sweeps.sh" asm check threads cuts files
start 'threads that stop' env JOBS=2 sh "$root/tests/sweeps.sh" stops
start 'the tables' sh "$root/tests/tables.sh"
start 'the documents' python3 -B "$root/tests/documents.py"
start 'the named wrong bodies' python3 -B "$root/tests/named_bodies.py"

: >"$work/input"
want_line 'itmrun: usage: itmrun asm|sched|threads|check FILE'
run
check 'no words' 1
run sched
check 'one word' 1
run sched - -
check 'three words' 1
run play -
check 'no such command' 1
run ''  -
check 'an empty command' 1
run --help
check 'help' 1
run --version x
check 'version' 1
run --loud sched -
check 'a flag' 1
run check
check 'check without a file' 1

# a line that cannot be written
if [ -w /dev/full ]; then
    : >"$work/want_errors"
    : >"$work/errors"
    "$program" >"$work/output" 2>/dev/full
    status=$?
    check 'no words, and full errors' 5
    "$program" sched "$work/absent" >"$work/output" 2>/dev/full
    status=$?
    check 'a file that is not there, and full errors' 5
fi

# files that cannot be read. That of a process's own memory can be opened, and its first read fails.
want_line 'itmrun: reading failed'
: >"$work/locked"
chmod 0 "$work/locked"
for command in asm sched threads check; do
    run $command "$work/absent"
    check "$command of a file that is not there" 5
    run $command "$root/HANDLES/absent"
    check "$command of a file in a file" 5
    run $command "$work"
    check "$command of a folder" 5
    run $command ''
    check "$command of an empty name" 5
    if [ -r /proc/self/mem ]; then
        run $command /proc/self/mem
        check "$command of a file whose reading fails" 5
    fi
    # who may read everything may read this too
    if [ ! -r "$work/locked" ]; then
        run $command "$work/locked"
        check "$command of a file that may not be read" 5
    fi
    "$program" $command - <&- >"$work/output" 2>"$work/errors"
    status=$?
    check "$command of a closed input" 5
    "$program" $command - <"$work" >"$work/output" 2>"$work/errors"
    status=$?
    check "$command of a folder as input" 5
done

cp "$root/examples/counter.history" "$work/want_output"
: >"$work/want_errors"
run sched "$root/examples/counter.itm"
check 'the counter from a file' 0
cp "$root/examples/counter.itm" "$work/input"
run sched -
check 'the counter from standard input' 0
cp "$work/input" "$work/-x"
(cd "$work" && "$program" sched -- -x >output 2>errors)
status=$?
check 'a file whose name begins with a dash' 0

# a script whose text was written by hand
: >"$work/want_errors"
cat >"$work/input" <<'END'
; counts
.commits 5
.memory 16
.init 3 AbCd
.schedule 0x3 1!
.thread 2
.rept 2
	set  r1 1
.endr
_ITM_beginTransaction r0 pr_hasNoIrrevocable+pr_hasNoAbort
_ITM_WU8 0 r1
_ITM_commitTransaction
.thread 1
END
cat >"$work/want_output" <<'END'
.memory 16
.arena 0
.patience 8
.retries 100
.commits 5
.init 3 abcd
.schedule 0x3
.schedule 1!
.thread 2
set r1 1
set r1 1
_ITM_beginTransaction r0 pr_hasNoAbort+pr_hasNoIrrevocable
_ITM_WU8 0 r1
_ITM_commitTransaction
.thread
END
run asm -
check 'a script that is printed' 0

# threads that give up: one that waits for a commit that stands still, and all but the first of those that may commit
cat >"$work/input" <<'END'
.memory 16
.patience 2
.retries 0
.schedule 1x1 0x3 1!
.thread
set r1 1
_ITM_beginTransaction r0 -
_ITM_WU8 0 r1
_ITM_WU8 8 r1
_ITM_commitTransaction
.thread
_ITM_beginTransaction r0 -
_ITM_RU8 r1 0
_ITM_commitTransaction
END
cat >"$work/want_output" <<'END'
itm-history 1
memory 00000000000000000000000000000000
attempt 1 1 0 conflict -
arena -
end
attempt 0 1 0 unfinished -
arena -
call _ITM_WU8 0 0100000000000000 = ok
call _ITM_WU8 8 0100000000000000 = ok
end
final 1 01000000000000000000000000000000
END
echo 'itmrun: thread 1 gave up' >"$work/want_errors"
run sched -
check 'a thread that gives up' 4
cat >"$work/input" <<'END'
.memory 8
.init 0 1122
.commits 1
.schedule 3! 2! 1! 0!
.thread 4
set r1 1
_ITM_beginTransaction r0 -
_ITM_WU8 0 r1
_ITM_commitTransaction
END
awk 'BEGIN {
    print "itm-history 1\nmemory 1122000000000000"
    for (i = 3; i >= 0; i--) {
        print "attempt " i " 1 " (i < 3) " " (i < 3 ? "full" : "committed") " -\narena -\ncall _ITM_WU8 0 0100000000000000 = ok"
        if (i == 3) print "call _ITM_commitTransaction = ok"
        print "end"
    }
    print "final 2 0100000000000000"
}' >"$work/want_output"
printf 'itmrun: thread %s gave up\n' 0 1 2 >"$work/want_errors"
run sched -
check 'three threads that give up' 4
: >"$work/want_output"
echo 'itmrun: writing failed' >"$work/want_errors"
"$program" sched - <"$work/input" >&- 2>"$work/errors"
status=$?
: >"$work/output"
check 'closed output, and threads that give up' 5

# as many threads as the first version tells of, each in its turn
: >"$work/want_errors"
{
    printf '.memory 8\n.thread 32\n'
    tail -n 6 "$root/examples/counter.itm"
} >"$work/input"
awk 'function word(n) { return sprintf("%02x00000000000000", n) }
BEGIN {
    print "itm-history 1\nmemory " word(0)
    for (i = 0; i < 32; i++)
        print "attempt " i " 1 " i " committed -\narena -\ncall _ITM_RU8 0 = " word(i) "\ncall _ITM_WU8 0 " word(i + 1) " = ok\ncall _ITM_commitTransaction = ok\nend"
    print "final 64 " word(32)
}' >"$work/want_output"
run sched -
check 'as many threads as the first version tells of' 0

# as many items as may be; all but the first one are passed over
awk 'BEGIN {
    print ".memory 8"
    for (i = 0; i < 65536; i += 16) {
        printf ".schedule"
        for (j = 0; j < 16; j++) printf " 0x1000000"
        print ""
    }
    print ".thread"
}' >"$work/input"
tail -n 6 "$root/examples/counter.itm" >>"$work/input"
cp "$root/examples/counter.history" "$work/want_output"
run sched -
check 'as many items as may be' 0

# as many instructions as may be: blocks that do nothing, and blocks that count
: >"$work/want_errors"
awk 'BEGIN {
    print ".memory 8\n.thread"
    for (i = 0; i < 32768; i++) print "_ITM_beginTransaction r0 -\n_ITM_commitTransaction"
}' >"$work/input"
awk 'BEGIN {
    print "itm-history 1\nmemory 0000000000000000"
    for (i = 0; i < 32768; i++) print "attempt 0 1 0 readonly -\narena -\ncall _ITM_commitTransaction = ok\nend"
    print "final 0 0000000000000000"
}' >"$work/want_output"
run sched -
check 'as many empty blocks as may be' 0
awk 'BEGIN {
    print ".memory 16\n.thread\nset r1 1"
    for (i = 0; i < 13107; i++) print "_ITM_beginTransaction r0 -\n_ITM_RU8 r2 8\nadd r2 r2 r1\n_ITM_WU8 8 r2\n_ITM_commitTransaction"
}' >"$work/input"
awk 'function word(n) { return sprintf("%02x%02x000000000000", n % 256, int(n / 256)) }
BEGIN {
    print "itm-history 1\nmemory 00000000000000000000000000000000"
    for (i = 0; i < 13107; i++)
        print "attempt 0 1 " i " committed -\narena -\ncall _ITM_RU8 8 = " word(i) "\ncall _ITM_WU8 8 " word(i + 1) " = ok\ncall _ITM_commitTransaction = ok\nend"
    print "final 26214 0000000000000000" word(13107)
}' >"$work/want_output"
run sched -
check 'as many counting blocks as may be' 0

# the largest memory of the first version
awk 'BEGIN {
    print ".memory 65536\n.thread\nset r1 255\n_ITM_beginTransaction r0 -\n_ITM_WU8 65528 r1\n_ITM_RU8 r1 65529\n_ITM_commitTransaction"
}' >"$work/input"
awk 'BEGIN {
    for (i = 0; i < 8191; i++) rest = rest "0000000000000000"
    print "itm-history 1\nmemory " rest "0000000000000000\nattempt 0 1 0 committed -\narena -"
    print "call _ITM_WU8 65528 ff00000000000000 = ok\ncall _ITM_RU8 65529 = refused 2\ncall _ITM_commitTransaction = ok\nend"
    print "final 2 " rest "ff00000000000000"
}' >"$work/want_output"
run sched -
check 'the largest memory of the first version' 0

# the largest text, and one byte more
printf '.memory 8\n.thread\n;' >"$work/input"
head -c 16777197 /dev/zero >>"$work/input"
printf 'itm-history 1\nmemory 0000000000000000\nfinal 0 0000000000000000\n' >"$work/want_output"
run sched -
check 'the largest text' 0
printf '\n' >>"$work/input"
want_line 'itmrun: line 0: too long'
run sched -
check 'a text that is too large' 2

want_line 'itmrun: line 2: misplaced'
printf '.memory 8\n.rept 2\n' >"$work/input"
run sched -
check 'a script that is refused' 2
run asm -
check 'a script that is not printed' 2

want_line 'itmrun: writing failed'
: >"$work/output"
"$program" sched "$root/examples/counter.itm" >&- 2>"$work/errors"
status=$?
check 'closed output' 5
"$program" asm "$root/examples/counter.itm" >&- 2>"$work/errors"
status=$?
check 'closed output of asm' 5
if [ -w /dev/full ]; then
    "$program" sched "$root/examples/counter.itm" >/dev/full 2>"$work/errors"
    status=$?
    check 'full output' 5
    "$program" asm "$root/examples/counter.itm" >/dev/full 2>"$work/errors"
    status=$?
    check 'full output of asm' 5
fi

# a runtime that loses an update
echo 'bad 11 reply' >"$work/want_output"
: >"$work/want_errors"
run check "$root/examples/lost.history"
check 'a history in which an update is lost' 3

. "$root/tests/rows.sh"
. "$root/tests/judging.sh"
. "$root/tests/largest.sh"
. "$root/tests/scripts.sh"
. "$root/tests/threads.sh"
. "$root/tests/streams.sh"
. "$root/tests/launcher.sh"
. "$root/tests/large_words.sh"

# (its threads are to run at once, so nothing beside them)
wait
sh "$root/tests/neighbours.sh" >"$work/beside/plain data beside parts of words" 2>&1

# the last line of each counts what passed and what failed
for told in "$work/beside/"*; do
    sed '$d' "$told"
    last=$(tail -n 1 "$told")
    case $last in
    *' passed, '*' failed')
        passed=$((passed + ${last%% *}))
        last=${last#*, }
        failed=$((failed + ${last%% *}))
        ;;
    *)
        failed=$((failed + 1))
        echo "failed: $(basename "$told"): $last"
        ;;
    esac
done

echo "$passed passed, $failed failed"
[ "$failed" = 0 ]

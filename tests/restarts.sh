# The part of tests/command.sh on blocks that run again, which versions 2 and 3 of histories tell: verdicts and faults of
# `itmrun check` that were worked out by hand, and three runs of `itmrun sched` event by event. It is read by that script, and
# uses its functions and variables, and those of tests/judging.sh. In the text of a row `\n` begins one more line.

# A block that ran again: it had read the second word before another thread's commit, had logged the first byte of the
# arena and written 09 to both bytes, and its undo action has run. The second byte is as it had left it.
cat >"$work/ran_again" <<'END'
itm-history 2
memory 000000000000000000000000000000000000000000000000
attempt 1 1 0 committed -
arena 0000
call _ITM_WU8 8 0700000000000000 = ok
call _ITM_commitTransaction = ok
end
attempt 0 1 1 readonly -
arena 0000
call _ITM_RU8 0 = 0000000000000000
call _ITM_beginTransaction - = code 5
restart 0009
undone 7 1
call _ITM_addUserUndoAction 7 1 = ok
call _ITM_LU1 0 = ok
call ld1 1 = 09
call st1 0 09 = ok
call st1 1 09 = ok
call _ITM_RU8 8 = 0700000000000000
call _ITM_RU8 16 = 0000000000000000
call _ITM_commitTransaction = ok
call _ITM_commitTransaction = ok
end
final 2 000000000000000007000000000000000000000000000000
END
cp "$work/ran_again" "$work/input"
judge 'a block that ran again' legal
judge_each "$work/ran_again" <<'END'
12|restart 0000|bad 16 reply
12|restart 00|line 12: bad size
1|itm-history 1|line 12: bad line
1|itm-history 3|line 2: bad line
1|itm-history 3\ndepth 2|legal
1|itm-history 3\ndepth 1|bad 12 reply
11|call _ITM_beginTransaction - = refused 8|line 12: bad line
11|call _ITM_beginTransaction pr_doesGoIrrevocable = code 5|bad 8 shape
13|undone 7|line 13: bad line
14|undone 8 1|legal
15|undone 8 1|line 15: bad line
12|restart 0109|legal
16|call ld1 1 = 00|bad 16 reply
16|call ld1 0 = 09|bad 16 reply
19|call _ITM_RU8 8 = 0000000000000000|bad 19 reply
8|attempt 0 1 0 readonly -|bad 19 reply
8|attempt 0 1 2 readonly -|bad 8 at
8|attempt 0 1 0 committed -|bad 8 position
8|attempt 0 1 1 cancelled -|bad 8 shape
5|call _ITM_WU8 8 0700000000000000 = refused 3|bad 5 reply
22|call _ITM_commitTransaction = ok\nran undo 7 1|bad 8 ran
24|final 2 000000000000000000000000000000000000000000000000|bad 24 final
END
# undo actions that ran as the block was left are told once, and those that it registered anew run where it is rolled back
judge_edited "$work/ran_again" <<'END'
13,14d;16d|legal
12s/09/00/;13,14d;16d|legal
12s/09/00/;13,14d|bad 14 reply
8s/readonly/conflict/;21s/.*/ran undo 7 1/;22d|legal
8s/readonly/conflict/;21,22d|bad 8 ran
8s/readonly/conflict/;21s/.*/ran undo 7 1\nran undo 7 1/;22d|bad 8 ran
8s/readonly/unfinished/;21,22d|legal
21s/.*/call _ITM_abortTransaction userAbort = code 24\ncall ld2 0 = 0009/;22s/$/\nran undo 7 1/|legal
21s/.*/call _ITM_abortTransaction userAbort = code 24\ncall ld2 0 = 0000/;22s/$/\nran undo 7 1/|bad 22 reply
21s/.*/call _ITM_abortTransaction userAbort = code 24/|bad 8 ran
END
# where these lines may stand, and in which form
cat >"$work/two_bytes" <<'END'
itm-history 2
memory 0000000000000000
attempt 0 1 0 readonly -
arena 0a0b
call _ITM_beginTransaction - = code 5
restart 0c0d
undone 1 2
undone 3 4
call ld2 0 = 0c0d
call _ITM_commitTransaction = ok
call ld2 0 = 0c0d
call _ITM_commitTransaction = ok
end
final 0 0000000000000000
END
cp "$work/two_bytes" "$work/input"
judge 'a block that ran again from two bytes' legal
judge_each "$work/two_bytes" <<'END'
1|restart 0a0b|line 1: bad header
2|restart 0a0b|line 2: bad line
3|restart 0a0b|line 3: bad line
4|restart 0a0b|line 4: bad line
4|arena 0a0b\nrestart 0a0b|line 5: bad line
4|arena 0a0b\nundone 1 2|line 5: bad line
4|arena -|line 6: bad size
4|arena 0a|line 6: bad size
4|arena 0a0b0c|line 6: bad size
5|call _ITM_beginTransaction pr_hasNoAbort+pr_hasNoIrrevocable = code 5|legal
5|call _ITM_beginTransaction - = code 9|line 6: bad line
5|call _ITM_beginTransaction - = code 24|line 6: bad line
5|call _ITM_beginTransaction - = code 255|line 6: bad line
5|call _ITM_beginTransaction - = code 256|line 5: bad size
5|call _ITM_beginTransaction - = code 05|line 5: bad line
5|call _ITM_beginTransaction - = refused 5|line 6: bad line
5|call _ITM_abortTransaction userAbort = code 24|line 6: bad line
5|call _ITM_abortTransaction userAbort = code 5|line 6: bad line
5|call _ITM_inTransaction = code 5|line 6: bad line
5|call _ITM_RU1 0 = 05|line 6: bad line
5|call _ITM_commitTransaction = ok|line 6: bad line
6|restart 0c|line 6: bad size
6|restart 0c0d0e|line 6: bad size
6|restart -|line 6: bad size
6|restart|line 6: bad line
6|restart |line 6: bad line
6|restart 0c0|line 6: bad line
6|restart 0C0D|line 6: bad line
6|restart 0c 0d|line 6: bad line
6|restart 0c0d |line 6: bad line
6| restart 0c0d|line 6: bad line
6|restart  0c0d|line 6: bad line
6|Restart 0c0d|line 6: bad line
6|restarts 0c0d|line 6: bad line
6|undone 1 2|line 6: bad line
6|call ld1 0 = 0a|line 7: bad line
6|restart 0c0d\nrestart 0c0d|line 7: bad line
7|restart 0c0d|line 7: bad line
8|restart 0c0d|line 8: bad line
7|undone|line 7: bad line
7|undone 1|line 7: bad line
7|undone 1 2 3|line 7: bad line
7|undone undo 1 2|line 7: bad line
7|undone 01 2|line 7: bad line
7|undone 1 02|line 7: bad line
7|undone 1 -2|line 7: bad line
7|undone 4294967295 18446744073709551615|legal
7|undone 4294967296 2|line 7: bad size
7|undone 1 18446744073709551616|line 7: bad size
7|undone 4294967296 x|line 7: bad line
9|undone 5 6|legal
9|call ld2 0 = 0a0b|bad 9 reply
10|restart 0c0d|line 10: bad line
10|undone 1 2|line 10: bad line
11|restart 0c0d|line 11: bad line
11|undone 1 2|line 11: bad line
11|call ld2 0 = 0a0b|bad 11 reply
12|call _ITM_commitTransaction = ok\nran undo 1 2\nundone 1 2|line 14: bad line
13|undone 1 2|line 13: bad line
13|end\nundone 4294967296 0|line 14: bad line
14|restart 0c0d|line 14: bad line
14|final 0 0000000000000000\nrestart 0c0d|line 15: bad line
END
judge_edited "$work/two_bytes" <<'END'
6d|line 6: bad line
7,8d|legal
5d|line 5: bad line
1s/2/1/;6,8d;9s/0c0d/0a0b/;11s/0c0d/0a0b/|legal
1s/2/1/;6d|line 6: bad line
4s/0a0b/-/;6s/0c0d/-/;9d;11d|legal
4s/0a0b/-/;6s/0c0d/00/|line 6: bad size
4s/0a0b/-/;6s/0c0d/- -/|line 6: bad line
4s/0a0b/-/;6s/0c0d/0/|line 6: bad line
4s/0a0b/-/;6s/ 0c0d//|line 6: bad line
END
judge_cuts "$work/two_bytes"
awk 'BEGIN {
    for (i = 0; i < 4096; i++) bytes = bytes "00"
    print "itm-history 2\nmemory 0000000000000000\nattempt 0 1 0 unfinished -\narena " bytes
    print "call _ITM_beginTransaction - = code 5\nrestart " bytes "\ncall ld1 4095 = 00\nend\nfinal 0 0000000000000000"
}' >"$work/full_arena"
judge_edited "$work/full_arena" <<'END'
6s/00$/ff/;7s/00$/ff/|legal
6s/$/00/|line 6: bad size
6s/00$//|line 6: bad size
4s/$/00/;6s/$/00/|line 4: bad size
END

# what is irrevocable does not run again, also where it became so by that begin; a block that ran again may become so
cat >"$work/held_later" <<'END'
itm-history 2
memory 0000000000000000
attempt 0 1 0 committed -
arena -
call _ITM_beginTransaction - = code 5
restart -
call _ITM_changeTransactionMode modeSerialIrrevocable = ok
call _ITM_inTransaction = code 2
call _ITM_commitTransaction = ok
call _ITM_beginTransaction - = code 5
call _ITM_commitTransaction = ok
call _ITM_commitTransaction = ok
end
final 2 0000000000000000
END
cp "$work/held_later" "$work/input"
judge 'a block that ran again, and became irrevocable' legal
judge_each "$work/held_later" <<'END'
10|call _ITM_beginTransaction - = code 5\nrestart -|bad 3 shape
3|attempt 0 1 0 committed pr_doesGoIrrevocable|bad 3 shape
5|call _ITM_beginTransaction pr_doesGoIrrevocable = code 5|bad 3 shape
5|call _ITM_changeTransactionMode modeSerialIrrevocable = ok\ncall _ITM_beginTransaction - = code 5|bad 3 shape
5|call _ITM_beginTransaction pr_hasNoIrrevocable = code 5|bad 7 reply
3|attempt 0 1 0 committed pr_hasNoIrrevocable+pr_doesGoIrrevocable|bad 3 shape
12|call _ITM_commitTransaction = ok\ncall _ITM_beginTransaction - = code 5\nrestart -|bad 3 shape
END
# it is judged right after the reply of its begin
judge_edited "$work/held_later" <<'END'
3s/-/pr_doesGoIrrevocable/;8s/2/1/|bad 3 shape
3s/-/pr_doesGoIrrevocable/;5s/.*/call _ITM_RU1 0 = 01\n&/|bad 5 reply
3s/-/pr_hasNoIrrevocable/;5s/ - / pr_doesGoIrrevocable /|bad 5 reply
3s/committed -/unfinished pr_doesGoIrrevocable/;6,13d;14s/.*/end\nfinal 1 0000000000000000/|legal
3s/committed -/unfinished pr_doesGoIrrevocable/;7,13d;14s/.*/end\nfinal 1 0000000000000000/|bad 3 shape
END

# what the blocks around keep of the arena outlives it: the block in the middle logged 0a, and the inner one ran again
cat >"$work/kept" <<'END'
itm-history 2
memory 0000000000000000
attempt 0 1 0 readonly -
arena 0a0b
call _ITM_beginTransaction - = code 5
call _ITM_LU1 0 = ok
call st1 0 ff = ok
call _ITM_beginTransaction - = code 5
restart ff0c
call _ITM_LU2 0 = ok
call st2 0 0000 = ok
call _ITM_abortTransaction userAbort = code 24
call ld2 0 = ff0c
call _ITM_abortTransaction userAbort = code 24
call ld2 0 = 0a0c
call _ITM_commitTransaction = ok
end
final 0 0000000000000000
END
cp "$work/kept" "$work/input"
judge 'what a block around logged' legal
judge_each "$work/kept" <<'END'
9|restart 0d0c|bad 13 reply
13|call ld2 0 = 0a0b|bad 13 reply
15|call ld2 0 = 0a0b|bad 15 reply
15|call ld2 0 = ff0c|bad 15 reply
12|call _ITM_commitTransaction = ok|bad 13 reply
14|call _ITM_commitTransaction = ok|bad 15 reply
6|call _ITM_LU1 1 = ok|bad 15 reply
10|call _ITM_LU1 0 = ok|bad 13 reply
END
# the block in the middle gets what the inner one logged as it ran again: 0c, and not ff
judge_edited "$work/kept" <<'END'
12s/.*/call _ITM_commitTransaction = ok/;13s/ff0c/0000/|legal
12s/.*/call _ITM_commitTransaction = ok/;13s/ff0c/0000/;15s/0a0c/0a0b/|bad 15 reply
6s/.*/call _ITM_inTransaction = code 1/;12s/.*/call _ITM_commitTransaction = ok/;13s/ff0c/0000/;15s/0a0c/ff0c/|legal
9s/ff0c/0d0e/;13s/ff0c/0d0e/;15s/0a0c/0a0e/|legal
END

# a block that ran again within one that did
cat >"$work/both" <<'END'
itm-history 2
memory 0000000000000000
attempt 0 1 0 conflict -
arena 01
call _ITM_addUserUndoAction 5 5 = ok
call _ITM_beginTransaction - = code 5
restart 02
undone 1 1
call ld1 0 = 02
call _ITM_WU1 0 77 = ok
call _ITM_beginTransaction - = code 5
restart 03
undone 2 2
undone 2 2
call ld1 0 = 03
call _ITM_RU1 0 = 77
call _ITM_addUserUndoAction 2 2 = ok
ran undo 2 2
ran undo 5 5
end
final 0 0000000000000000
END
cp "$work/both" "$work/input"
judge 'a block that ran again within one that did' legal
judge_each "$work/both" <<'END'
9|call ld1 0 = 01|bad 9 reply
9|call ld1 0 = 03|bad 9 reply
15|call ld1 0 = 02|bad 15 reply
16|call _ITM_RU1 0 = 00|bad 16 reply
17|call _ITM_commitTransaction = ok\ncall _ITM_beginTransaction - = code 5\nrestart 04|bad 3 ran
18|ran undo 5 5|bad 3 ran
18|ran undo 2 2\nran undo 1 1|bad 3 ran
3|attempt 0 1 0 readonly -|bad 3 shape
3|attempt 0 1 0 full -|legal
3|attempt 0 1 0 unfinished -|bad 3 ran
3|attempt 0 1 1 conflict -|bad 3 at
END
judge_edited "$work/both" <<'END'
3s/conflict/unfinished/;18,19d|legal
3s/conflict/nomemory/|legal
11s/.*/&\nrestart 03\ncall _ITM_commitTransaction = ok\n&/|legal
18s/.*/call _ITM_abortTransaction userAbort+outerAbort = code 24\n&/;3s/conflict/cancelled/|legal
17s/.*/call _ITM_commitTransaction = ok\ncall _ITM_beginTransaction - = code 5\nrestart 04\ncall ld1 0 = 04/;18d|legal
END

# Three of the rows, each cut after each of its events. Thread 0 reads the first word (events 2 and 3), and in an inner block,
# where it writes to its arena, the second one (4 and 5). Thread 1 changes one of them (6 to 9). The next read of thread 0 loads
# its word and the clock (10 and 11), and a round looks at the clock and at what was read (12 to 14).

# cut_after EVENTS: the schedule of the first ones
cut_after() {
    if [ "$1" -le 5 ]; then
        echo ".schedule 0x$1"
    elif [ "$1" -le 9 ]; then
        echo ".schedule 0x5 1x$(($1 - 5))"
    else
        echo ".schedule 0x5 1x4 0x$(($1 - 9))"
    fi
}

# told_after EVENTS VERSION PLACE CONFLICT: the history of so many events, where thread 1 writes at this place, and where thread
# 0 ends in a conflict at this event; 0 where it does not. Then the inner block runs again at event 15, the last load of the
# round, and reads the second and the third word by events 16 to 19.
told_after() {
    awk -v n="$1" -v version="$2" -v place="$3" -v conflict="$4" 'BEGIN {
        zero = "0000000000000000"
        seven = "0700000000000000"
        again = !conflict && n >= 15
        outcome = conflict && n >= conflict ? "conflict" : !conflict && n >= 19 ? "readonly" : "unfinished"
        writer = "arena 0000\ncall _ITM_WU8 " place " " seven " = ok"
        print "itm-history " version "\nmemory " zero zero zero
        if (n >= 9) print "attempt 1 1 0 committed -\n" writer "\ncall _ITM_commitTransaction = ok\nend"
        print "attempt 0 1 " (again ? 1 : 0) " " outcome " -\narena 0000"
        if (n >= 3) {
            print "call _ITM_RU8 0 = " zero "\ncall _ITM_beginTransaction - = code 5"
            if (again) print "restart 0009"
            print "call _ITM_LU1 0 = ok\ncall st1 0 09 = ok\ncall st1 1 09 = ok"
        }
        if (again ? n >= 17 : n >= 5) print "call _ITM_RU8 8 = " (again ? seven : zero)
        if (outcome == "readonly")
            print "call _ITM_RU8 16 = " zero "\ncall _ITM_commitTransaction = ok\ncall _ITM_commitTransaction = ok"
        print "end"
        if (n >= 6 && n < 9) print "attempt 1 1 0 unfinished -\n" writer "\nend"
        stored = n >= 8 ? seven : zero
        print "final " (n < 7 ? 0 : n < 9 ? 1 : 2) " " (place ? zero stored : stored zero) zero
    }' >"$work/want_output"
}

while read -r name version place conflict events; do
    n=1
    while [ "$n" -le "$events" ]; do
        sed "s/^\.schedule.*/$(cut_after "$n")/" "$root/tests/rows/$name.itm" >"$work/input"
        told_after "$n" "$version" "$place" "$conflict"
        : >"$work/want_errors"
        wanted=0
        if [ "$conflict" -gt 0 ] && [ "$n" -ge "$conflict" ]; then
            echo 'itmrun: thread 0 gave up' >"$work/want_errors"
            wanted=4
        fi
        run sched -
        check "$name.itm, the first $n events" "$wanted"
        cp "$work/want_output" "$work/input"
        judge "the history of $name.itm, the first $n events" legal
        n=$((n + 1))
    done
done <<'END'
inner_block_runs_again 2 8 0 20
inner_block_may_not_run_again 1 8 14 15
word_read_outside_is_changed 2 0 13 14
END

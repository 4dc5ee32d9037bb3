# The part of tests/command.sh on `itmrun check`: histories, and verdicts and faults that were worked out by hand.
# It is read by that script, and uses its functions and variables, and those of tests/judging.sh.

# two that commit, one after the other
cat >"$work/two_writers" <<'END'
itm-history 1
memory 0000000000000000
attempt 0 1 0 committed -
arena -
call _ITM_WU1 0 01 = ok
call _ITM_commitTransaction = ok
end
attempt 1 1 1 committed -
arena -
call _ITM_WU1 1 02 = ok
call _ITM_commitTransaction = ok
end
final 4 0102000000000000
END
cp "$work/two_writers" "$work/input"
judge 'two writers' legal
sed '8s/committed/unfinished/;11s/.*/call _ITM_RU1 1 = 02/;13s/.*/final 2 0100000000000000/' "$work/two_writers" >"$work/input"
judge 'what one that has not ended wrote is not in the memory' legal
sed '3,12d' "$work/two_writers" >"$work/nobody"
judge_each "$work/nobody" <<'END'
3|final 0 0000000000000000|legal
3|final 1 0000000000000000|bad 3 final
END

# verdicts
judge_each "$work/two_writers" <<'END'
8|attempt 1 1 0 committed -|bad 8 position
3|attempt 0 1 1 committed -|bad 8 position
3|attempt 0 1 2 committed -|bad 3 position
8|attempt 1 1 18446744073709551615 committed -|bad 8 position
8|attempt 1 1 2 unfinished -|bad 8 at
8|attempt 1 1 2 readonly -|bad 8 at
5|call _ITM_WU1 0 01 = refused 2|bad 5 reply
5|call _ITM_WU1 0 01 = refused 1|bad 5 reply
5|call _ITM_WU1 8 01 = refused 2|bad 13 final
5|call _ITM_beginTransaction - = code 9|bad 5 reply
10|call _ITM_RU1 0 = 00|bad 10 reply
10|call _ITM_RU1 0 = 01|bad 13 final
10|call _ITM_WU1 0 02 = ok|bad 13 final
10|call _ITM_commitTransaction = ok|bad 8 shape
11|call _ITM_abortTransaction userAbort = code 24|bad 8 shape
11|call _ITM_abortTransaction userAbort = refused 5|bad 11 reply
6|call _ITM_addUserCommitAction 7 _ITM_noTransactionId 0 = ok|bad 3 shape
3|attempt 0 1 0 committed pr_hasNoIrrevocable+pr_doesGoIrrevocable|bad 3 shape
3|attempt 0 1 0 committed pr_doesGoIrrevocable|legal
8|attempt 1 1 1 readonly -|bad 8 shape
8|attempt 1 1 1 cancelled -|bad 8 shape
8|attempt 1 1 1 conflict -|bad 8 shape
8|attempt 1 1 1 full -|bad 8 shape
8|attempt 1 1 1 nomemory -|bad 8 shape
8|attempt 1 1 1 unfinished -|bad 8 shape
6|ran commit 7 0|bad 3 shape
13|final 2 0102000000000000|bad 13 final
13|final 3 0102000000000000|bad 13 final
13|final 5 0102000000000000|bad 13 final
13|final 6 0102000000000000|bad 13 final
13|final 4 0103000000000000|bad 13 final
8|attempt 0 7 1 committed -|legal
END

# faults of texts
judge_each "$work/two_writers" <<'END'
1|itm-history 1 |line 1: bad header
1||line 1: bad header
2|memory 00000000000000|line 2: bad size
2|memory 000000000000000000|line 2: bad size
2|memory 000000000000000|line 2: bad line
2|memory -|line 2: bad line
2|memory|line 2: bad line
2|memory  0000000000000000|line 2: bad line
2|Memory 0000000000000000|line 2: bad line
2|final 0 0000000000000000|line 2: bad line
2|memory 000000000000000A|line 2: bad line
3|attempt 32 1 0 committed -|line 3: bad size
3|attempt 0 0 0 committed -|line 3: bad size
3|attempt 0 10002 0 committed -|line 3: bad size
3|attempt 0 10001 0 committed -|legal
3|attempt 31 1 0 committed -|legal
3|attempt 0 1 18446744073709551616 committed -|line 3: bad size
3|attempt 0 01 0 committed -|line 3: bad line
3|attempt 32 01 0 committed -|line 3: bad line
3|attempt +0 1 0 committed -|line 3: bad line
3|attempt 0 1 0 done -|line 3: bad line
3|attempt 0 1 0 committed|line 3: bad line
3|attempt 0 1 0 committed - -|line 3: bad line
3|attempt 0 1 0 committed pr_hasNoIrrevocable+pr_hasNoAbort|line 3: bad line
3|attempt 0 1 0 committed pr_hasNoAbort+pr_hasNoIrrevocable|legal
3|end|line 3: bad line
3| attempt 0 1 0 committed -|line 3: bad line
4|arena|line 4: bad line
4|arena 0|line 4: bad line
4|arena 0a|legal
4|arena 0A|line 4: bad line
4|call _ITM_WU1 0 01 = ok|line 4: bad line
5|call _ITM_WU1 0 0102 = ok|line 5: bad size
5|call _ITM_WU2 0 01 = ok|line 5: bad size
5|call _ITM_WU1 0 0 = ok|line 5: bad line
5|call _ITM_WU1 0 = ok|line 5: bad line
5|call _ITM_WU1 0 01 02 = ok|line 5: bad line
5|call _ITM_WU1 0 01 ok|line 5: bad line
5|call _ITM_WU1 0 01 =|line 5: bad line
5|call _ITM_WU1 0 01 = ok |line 5: bad line
5|call _ITM_WU1 0 01 = 01|line 5: bad line
5|call _ITM_WU1 0 01 = code 5|line 5: bad line
5|call _ITM_WU1 0 01 = refused 0|line 5: bad size
5|call _ITM_WU1 0 01 = refused 9|line 5: bad size
5|call _ITM_WU1 x 01 = refused 9|line 5: bad line
5|call _ITM_wu1 0 01 = ok|line 5: bad line
5|call _ITM_WaWU1 0 01 = ok|legal
5|call _ITM_WfWU1 0 01 = ok|line 5: bad line
5|call _ITM_RU1 0 = ok|line 5: bad line
5|call _ITM_RU1 0 = 0000|line 5: bad size
5|call _ITM_RU1 18446744073709551616 = 00|line 5: bad size
5|call _ITM_inTransaction = code 256|line 5: bad size
5|call _ITM_inTransaction = ok|line 5: bad line
5|call _ITM_beginTransaction = code 5|line 5: bad line
5|call _ITM_abortTransaction outerAbort = code 24|line 5: bad line
5|call _ITM_changeTransactionMode = ok|line 5: bad line
5|call _ITM_LB 0 = ok|line 5: bad line
5|call _ITM_memcpyRnWn 0 0 0 = ok|line 5: bad line
5|call _ITM_memsetW 0 256 1 = ok|line 5: bad size
5|call _ITM_addUserUndoAction 4294967296 0 = ok|line 5: bad size
5|call _ITM_addUserCommitAction 7 0 = ok|line 5: bad line
5|call ld3 0 = 000000|line 5: bad line
5|call ld16 0 = 00000000000000000000000000000000|line 5: bad line
5|call st1 0 0102 = ok|line 5: bad size
6|final 2 0100000000000000|line 6: bad line
6|ran undo 4294967296 0|line 6: bad size
6|ran rollback 1 0|line 6: bad line
7|end end|line 7: bad line
7|call _ITM_commitTransaction = ok|line 8: bad line
8|end|line 8: bad line
13|final 4 01020000000000|line 13: bad size
13|final 4 010200000000000000|line 13: bad size
13|final 4 01020000000000000|line 13: bad line
13|final 04 0102000000000000|line 13: bad line
13|final 18446744073709551616 0102000000000000|line 13: bad size
13|final 4|line 13: bad line
13|memory 0102000000000000|line 13: bad line
END
{
    cat "$work/two_writers"
    printf 'final 4 0102000000000000\n'
} >"$work/input"
judge 'a line behind the final one' 'line 14: bad line'
{
    cat "$work/two_writers"
    printf '\n'
} >"$work/input"
judge 'an empty line behind the final one' 'line 14: bad line'
{
    cat "$work/two_writers"
    printf 'x'
} >"$work/input"
judge 'a line behind the final one that is cut' 'line 14: cut'
{
    sed '4s/.*/arena 0A/' "$work/two_writers"
    printf 'final'
} >"$work/input"
judge 'two faults' 'line 4: bad line'
sed 's/$/\r/' "$work/two_writers" >"$work/input"
judge 'carriage returns' 'line 1: bad header'

judge_cuts "$work/two_writers"

# undo actions
cat >"$work/undone" <<'END'
itm-history 1
memory 0000000000000000
attempt 0 1 0 cancelled -
arena -
call _ITM_addUserUndoAction 1 0 = ok
call _ITM_beginTransaction - = code 5
call _ITM_addUserUndoAction 2 0 = ok
call _ITM_abortTransaction userAbort+outerAbort = code 24
ran undo 2 0
ran undo 1 0
end
final 0 0000000000000000
END
cp "$work/undone" "$work/input"
judge 'undo actions' legal
judge_each "$work/undone" <<'END'
3|attempt 0 1 0 conflict -|bad 3 shape
3|attempt 0 1 0 readonly -|bad 3 shape
8|call _ITM_abortTransaction userAbort = code 24|bad 3 shape
9|ran undo 1 0|bad 3 ran
9|ran commit 2 0|bad 3 ran
9|ran undo 2 1|bad 3 ran
10|ran undo 3 0|bad 3 ran
END
sed '9d' "$work/undone" >"$work/input"
judge 'an undo action is missing' 'bad 3 ran'
sed '10d' "$work/undone" | sed '9s/.*/&\nran undo 1 0\nran undo 1 0/' >"$work/input"
judge 'an undo action too many' 'bad 3 ran'
sed '9{h;d};10G' "$work/undone" >"$work/input"
judge 'undo actions in the order of their registration' 'bad 3 ran'
sed '3s/cancelled/conflict/;8d' "$work/undone" >"$work/input"
judge 'undo actions after a conflict' legal
sed '3s/cancelled/nomemory/;8d' "$work/undone" >"$work/input"
judge 'undo actions of one that found no memory' legal
sed '3s/cancelled/unfinished/;8d' "$work/undone" >"$work/input"
judge 'undo actions of one that has not ended' 'bad 3 ran'
sed '3s/cancelled/unfinished/;8,10d' "$work/undone" >"$work/input"
judge 'one that has not ended' legal
sed '3s/cancelled/full/;8s/+outerAbort//' "$work/undone" >"$work/input"
judge 'undo actions of an inner cancel, and those that are left' legal

# commit actions run in the order of their registration, and no undo action does
sed '6s/.*/call _ITM_addUserCommitAction 2 _ITM_noTransactionId 0 = ok\n&\nran commit 7 0\nran commit 2 0/;5s/.*/call _ITM_addUserCommitAction 7 _ITM_noTransactionId 0 = ok\ncall _ITM_addUserUndoAction 3 0 = ok\n&/' "$work/two_writers" >"$work/input"
judge 'commit actions' legal

# irrevocable ones
cat >"$work/holder" <<'END'
itm-history 1
memory 0000000000000000
attempt 0 1 0 unfinished pr_doesGoIrrevocable
arena -
call _ITM_WU1 0 01 = ok
end
final 1 0100000000000000
END
cp "$work/holder" "$work/input"
judge 'an irrevocable one that has not ended' legal
judge_each "$work/holder" <<'END'
7|final 0 0000000000000000|bad 7 final
7|final 1 ffffffffffffffff|legal
7|final 3 0100000000000000|bad 7 final
3|attempt 0 1 0 conflict pr_doesGoIrrevocable|bad 3 shape
3|attempt 0 1 0 nomemory pr_doesGoIrrevocable|bad 3 shape
3|attempt 0 1 0 unfinished -|legal
5|call _ITM_abortTransaction userAbort = refused 6|legal
5|call _ITM_abortTransaction userAbort = code 24|bad 5 reply
5|call _ITM_inTransaction = code 2|legal
5|call _ITM_inTransaction = code 1|bad 5 reply
5|call _ITM_changeTransactionMode modeSerialIrrevocable = ok|legal
END
sed '3,6{H};6{G;s/\n\(.*\)$/\n\1/}' "$work/holder" | awk 'NF' >"$work/input"
judge 'two irrevocable ones that have not ended' 'bad 11 final'
cat >"$work/input" <<'END'
itm-history 1
memory 0000000000000000
attempt 0 1 0 unfinished pr_doesGoIrrevocable
arena -
end
attempt 1 1 0 committed -
arena -
call _ITM_WU1 0 01 = ok
call _ITM_commitTransaction = ok
end
attempt 2 1 1 unfinished -
arena -
end
final 3 0100000000000000
END
judge 'an irrevocable one before the last position' 'bad 14 final'
cat >"$work/ended" <<'END'
itm-history 1
memory 0000000000000000
attempt 0 1 0 readonly -
arena -
call _ITM_RU1 0 = 00
call _ITM_commitTransaction = ok
end
final 0 0000000000000000
END
cp "$work/ended" "$work/input"
judge 'a reader' legal
judge_each "$work/ended" <<'END'
5|call _ITM_RU1 0 = 01|bad 5 reply
8|final 2 0000000000000000|bad 8 final
3|attempt 0 1 0 readonly pr_doesGoIrrevocable|bad 3 shape
5|call _ITM_changeTransactionMode modeSerialIrrevocable = ok|bad 3 shape
5|call _ITM_WU1 0 00 = ok|legal
5|call _ITM_WU1 0 01 = ok|bad 3 shape
3|attempt 0 1 0 committed -|bad 8 final
END
sed '3s/-/pr_hasNoIrrevocable+pr_doesGoIrrevocable/;5s/00$/01/' "$work/ended" >"$work/input"
judge 'properties that are refused, and a wrong reply' 'bad 3 shape'
sed '3s/readonly/committed/;8s/0/2/' "$work/ended" >"$work/input"
judge 'one that committed and wrote nothing' legal

# what a block logged goes back, and nothing else of the arena
cat >"$work/logged" <<'END'
itm-history 1
memory 0000000000000000
attempt 0 1 0 readonly -
arena 0a0b
call _ITM_beginTransaction - = code 5
call _ITM_LU1 0 = ok
call st1 0 ff = ok
call st1 1 ff = ok
call _ITM_abortTransaction userAbort = code 24
call ld2 0 = 0aff
call _ITM_commitTransaction = ok
end
final 0 0000000000000000
END
cp "$work/logged" "$work/input"
judge 'a block that logged' legal
judge_each "$work/logged" <<'END'
10|call ld2 0 = 0a0b|bad 10 reply
10|call ld2 1 = refused 3|legal
6|call _ITM_LU1 1 = ok|bad 10 reply
6|call _ITM_LU1 2 = refused 3|bad 10 reply
9|call _ITM_commitTransaction = ok|bad 10 reply
4|arena 0a|bad 8 reply
END

# committed ones are judged by position, before all others
cat >"$work/input" <<'END'
itm-history 1
memory 0000000000000000
attempt 2 1 2 readonly -
arena -
call _ITM_RU1 0 = 00
call _ITM_commitTransaction = ok
end
attempt 1 1 1 committed -
arena -
call _ITM_RU1 0 = 00
call _ITM_WU1 0 02 = ok
call _ITM_commitTransaction = ok
end
attempt 0 1 0 committed -
arena -
call _ITM_RU1 0 = 01
call _ITM_WU1 0 01 = ok
call _ITM_commitTransaction = ok
end
final 4 0200000000000000
END
cp "$work/input" "$work/three"
judge 'the first position is judged first' 'bad 16 reply'
judge_each "$work/three" <<'END'
3|attempt 2 1 3 readonly -|bad 3 at
16|call _ITM_RU1 0 = 00|bad 10 reply
END
sed '16s/01$/00/;10s/00$/01/' "$work/three" >"$work/one_left"
cp "$work/one_left" "$work/input"
judge 'the others come last' 'bad 5 reply'
sed '20s/.*/attempt 3 1 0 readonly -\narena -\ncall _ITM_RU1 0 = 07\ncall _ITM_commitTransaction = ok\nend\n&/' "$work/one_left" >"$work/input"
judge 'the others in the order of the text' 'bad 5 reply'
judge_each "$work/one_left" <<'END'
5|call _ITM_RU1 0 = 02|legal
END

want_line 'itmrun: writing failed'
: >"$work/output"
"$program" check "$root/examples/counter.history" >&- 2>"$work/errors"
status=$?
check 'closed output of check' 5
if [ -w /dev/full ]; then
    "$program" check "$root/examples/counter.history" >/dev/full 2>"$work/errors"
    status=$?
    check 'full output of check' 5
fi

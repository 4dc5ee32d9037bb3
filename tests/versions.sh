# The part of tests/command.sh on `itmrun check` and the three versions of histories: their first lines, depths, limits and
# ends, with verdicts and faults that were worked out by hand. It is read by that script, and uses its functions and variables,
# those of tests/judging.sh, and histories of tests/histories.sh. In the text of a row `\n` begins one more line.

# a history that uses nothing new is one of each version
judge_each "$work/two_writers" <<'END'
1|itm-history 2|legal
1|itm-history 3|line 2: bad line
1|itm-history 3\ndepth 16|legal
1|itm-history 3\ndepth 1|legal
1|itm-history 4|line 1: bad header
1|itm-history 0|line 1: bad header
1|itm-history 02|line 1: bad header
1|itm-history 22|line 1: bad header
1|itm-history 2 |line 1: bad header
1|itm-history 2 2|line 1: bad header
1|itm-history  2|line 1: bad header
1|itm-history -2|line 1: bad header
1|itm-history 3 16|line 1: bad header
1|itm-history|line 1: bad header
1|Itm-history 2|line 1: bad header
1|depth 16|line 1: bad header
1|itm-history 1\ndepth 16|line 2: bad line
1|itm-history 2\ndepth 16|line 2: bad line
1|itm-history 3\ndepth 16\ndepth 16|line 3: bad line
1|depth 16\nitm-history 3|line 1: bad header
END

# no block may be open within another
cat >"$work/flat" <<'END'
itm-history 3
depth 1
memory 0000000000000000
attempt 40 1 0 readonly -
arena -
call _ITM_beginTransaction - = refused 8
call _ITM_commitTransaction = ok
end
final 0 0000000000000000
END
cp "$work/flat" "$work/input"
judge 'no block within another' legal
judge_each "$work/flat" <<'END'
2|depth 2|bad 6 reply
2|depth 64|bad 6 reply
2|depth 0|line 2: bad size
2|depth 65|line 2: bad size
2|depth 18446744073709551615|line 2: bad size
2|depth 18446744073709551616|line 2: bad size
2|depth 01|line 2: bad line
2|depth 00|line 2: bad line
2|depth 064|line 2: bad line
2|depth +1|line 2: bad line
2|depth -1|line 2: bad line
2|depth 0x1|line 2: bad line
2|depth|line 2: bad line
2|depth |line 2: bad line
2|depth -|line 2: bad line
2|depth  1|line 2: bad line
2|depth 1 |line 2: bad line
2|depth 1 1|line 2: bad line
2| depth 1|line 2: bad line
2|Depth 1|line 2: bad line
2|depths 1|line 2: bad line
2|restart -|line 2: bad line
2|memory 0000000000000000\ndepth 1|line 2: bad line
3|memory 0000000000000000\ndepth 1|line 4: bad line
3|final 0 0000000000000000|line 3: bad line
3|memory 00000000000000|line 3: bad size
5|depth 1|line 5: bad line
6|call _ITM_beginTransaction - = code 5|bad 6 reply
6|call _ITM_beginTransaction - = code 5\nrestart -|bad 6 reply
6|call _ITM_beginTransaction - = refused 8\nrestart -|line 7: bad line
6|call _ITM_beginTransaction pr_hasNoIrrevocable+pr_doesGoIrrevocable = refused 7|legal
6|call _ITM_beginTransaction pr_doesGoIrrevocable = refused 8\ncall _ITM_inTransaction = code 1|legal
6|call _ITM_addUserCommitAction 1 _ITM_noTransactionId 2 = refused 4|bad 6 reply
END
judge_edited "$work/flat" <<'END'
2d|line 2: bad line
1s/3/2/;2d|line 3: bad size
1s/3/1/;2d|line 3: bad size
1s/3/2/;2d;4s/40/4/|bad 5 reply
1s/3/1/;2d;4s/40/4/;6s/refused 8/code 5/;7s/.*/&\n&/|legal
END

# nested FIRST COUNT REPLY: the history with these first lines of one that has not ended, in which so many blocks begin within
# the outermost one; the last begin is answered so
nested() {
    awk -v first="$1" -v count="$2" -v reply="$3" 'BEGIN {
        print first "\nmemory 0000000000000000\nattempt 0 1 0 unfinished -\narena -"
        for (i = 1; i <= count; i++) print "call _ITM_beginTransaction - = " (i < count ? "code 5" : reply)
        print "end\nfinal 0 0000000000000000"
    }' >"$work/input"
}
# of a version's first lines: how many blocks may be open, and the line of the first begin
while IFS='|' read -r first most line; do
    if [ "$most" -gt 1 ]; then
        nested "$first" $((most - 1)) 'code 5'
        judge "$first: as many blocks as may be open" legal
        nested "$first" $((most - 1)) 'refused 8'
        judge "$first: the last block that may be open is refused" "bad $((line + most - 2)) reply"
    fi
    nested "$first" "$most" 'refused 8'
    judge "$first: one block more is refused" legal
    nested "$first" "$most" 'code 5'
    judge "$first: one block more is open" "bad $((line + most - 1)) reply"
done <<'END'
itm-history 1|16|5
itm-history 2|16|5
itm-history 3\ndepth 1|1|6
itm-history 3\ndepth 2|2|6
itm-history 3\ndepth 16|16|6
itm-history 3\ndepth 17|17|6
itm-history 3\ndepth 64|64|6
END

# threads and tries: of each version the most, and one more
while IFS='|' read -r first line most; do
    sed "1s/.*/$first/" "$work/holder" >"$work/of_version"
    judge_each "$work/of_version" <<END
$line|attempt 31 10001 0 unfinished pr_doesGoIrrevocable|legal
$line|attempt $most 1 0 unfinished pr_doesGoIrrevocable|legal
$line|attempt $((most + 1)) 1 0 unfinished pr_doesGoIrrevocable|line $line: bad size
$line|attempt 0$most 1 0 unfinished pr_doesGoIrrevocable|line $line: bad line
$line|attempt 0 10002 0 unfinished pr_doesGoIrrevocable|line $line: bad size
$line|attempt 10002 1 0 unfinished pr_doesGoIrrevocable|line $line: bad size
END
done <<'END'
itm-history 1|3|31
itm-history 2|3|31
itm-history 3\ndepth 16|4|63
END

# sized FIRST BYTES [PLACE]: the history with these first lines and so many zero bytes of memory, of one try that writes 8 bytes
# at this place, and is refused at the next one; of no try where no place is said
sized() {
    awk -v first="$1" -v bytes="$2" -v place="$3" 'BEGIN {
        digits = "00"
        while (length(digits) < 2 * bytes) digits = digits digits
        digits = substr(digits, 1, 2 * bytes)
        print first "\nmemory " digits
        if (place != "") {
            print "attempt 0 1 0 committed -\narena -\ncall _ITM_WU8 " place " 0000000000000000 = ok"
            printf "call _ITM_WU8 %d 0000000000000000 = refused 2\ncall _ITM_commitTransaction = ok\nend\n", place + 1
        }
        print "final " (place == "" ? 0 : 2) " " digits
    }' >"$work/input"
}
while IFS='|' read -r first bytes place answer; do
    sized "$first" "$bytes" "$place"
    judge "$first: $bytes bytes" "$answer"
done <<'END'
itm-history 1|65536|65528|legal
itm-history 1|65544||line 2: bad size
itm-history 2|8|0|legal
itm-history 2|65536|65528|legal
itm-history 2|65544||line 2: bad size
itm-history 2|1048576||line 2: bad size
itm-history 2|4||line 2: bad size
itm-history 3\ndepth 16|8|0|legal
itm-history 3\ndepth 16|65544|65536|legal
itm-history 3\ndepth 1|1048576|1048568|legal
itm-history 3\ndepth 16|1048576|1048560|bad 7 reply
itm-history 3\ndepth 16|1048584||line 3: bad size
itm-history 3\ndepth 16|65540||line 3: bad size
itm-history 3\ndepth 16|1048580||line 3: bad size
itm-history 3\ndepth 65|1048584||line 2: bad size
END
sized 'itm-history 3\ndepth 16' 1048576
sed '3s/00$/01/' "$work/input" >"$work/other_end"
cp "$work/other_end" "$work/input"
judge 'the last byte of the largest memory' 'bad 4 final'
sed '3s/01$//' "$work/other_end" >"$work/input"
judge 'a byte less than the largest memory' 'line 3: bad size'
sed '4s/00000000$//' "$work/other_end" >"$work/input"
judge 'less bytes at the end than in the largest memory' 'line 4: bad size'

# ends
cat >"$work/waits" <<'END'
itm-history 3
depth 2
memory 0078000000000000
attempt 63 1 0 cancelled -
arena 00
call _ITM_abortTransaction userAbort = code 24
end
attempt 1 1 0 unfinished -
arena -
call _ITM_changeTransactionMode modeSerialIrrevocable = ok
call _ITM_LF 0 = refused 3
call _ITM_beginTransaction - = code 5
end
attempt 3 1 0 unfinished -
arena 00
call _ITM_beginTransaction - = code 5
restart 05
call ld1 0 = 05
end
final 1 0078000000000000
END
cp "$work/waits" "$work/input"
judge 'one that holds the clock, and one whose block ran again' legal
judge_each "$work/waits" <<'END'
20|final 1 ffffffffffffffff|legal
20|final 0 0078000000000000|bad 20 final
20|final 2 0078000000000000|bad 20 final
20|final 3 0078000000000000|bad 20 final
12|call _ITM_beginTransaction - = code 5\nrestart -|bad 8 shape
10|call _ITM_inTransaction = code 1|legal
8|attempt 1 1 0 nomemory -|bad 8 shape
8|attempt 1 1 1 unfinished -|bad 8 at
14|attempt 3 1 0 unfinished pr_doesGoIrrevocable|bad 14 shape
16|call _ITM_changeTransactionMode modeSerialIrrevocable = ok|line 17: bad line
18|call _ITM_changeTransactionMode modeSerialIrrevocable = ok|bad 20 final
18|call _ITM_commitTransaction = ok\ncall _ITM_commitTransaction = ok|bad 14 shape
18|call _ITM_commitTransaction = refused 24|line 18: bad size
6|call _ITM_commitTransaction = ok|bad 4 shape
END
judge_edited "$work/waits" <<'END'
8,19d;20s/1/0/|legal
8,19d|bad 8 final
4,19d|bad 4 final
4,19d;20s/1/0/|legal
4,19d;20s/1/0/;20s/78/79/|bad 4 final
END

# committed ones are judged first, also where a block ran again above them
cat >"$work/input" <<'END'
itm-history 2
memory 0000000000000000
attempt 0 1 0 readonly pr_doesGoIrrevocable
arena -
call _ITM_beginTransaction - = code 5
restart -
call _ITM_commitTransaction = ok
call _ITM_commitTransaction = ok
end
attempt 1 1 0 committed -
arena 01
call _ITM_beginTransaction - = code 5
restart 02
undone 1 1
undone 2 2
call ld1 0 = 02
call _ITM_addUserCommitAction 3 _ITM_noTransactionId 3 = ok
call _ITM_WU1 0 02 = ok
call _ITM_commitTransaction = ok
call _ITM_commitTransaction = ok
ran commit 3 3
end
final 2 0200000000000000
END
cp "$work/input" "$work/first_commits"
judge 'one whose block ran again, and one that cannot have' 'bad 3 shape'
judge_edited "$work/first_commits" <<'END'
3s/pr_doesGoIrrevocable/-/|legal
16s/02/01/|bad 16 reply
13s/02/01/|bad 16 reply
21s/commit/undo/|bad 10 ran
21d|bad 10 ran
10s/committed/readonly/|bad 3 shape
10s/committed/full/|bad 3 shape
3s/pr_doesGoIrrevocable/-/;10s/committed/full/|bad 10 shape
3s/pr_doesGoIrrevocable/-/;3s/ 0 readonly/ 1 readonly/;5s/.*/call _ITM_RU1 0 = 02\n&/|legal
3s/pr_doesGoIrrevocable/-/;3s/ 0 readonly/ 1 readonly/;5s/.*/call _ITM_RU1 0 = 00\n&/|bad 5 reply
3s/pr_doesGoIrrevocable/-/;23s/02/03/|bad 23 final
END

# cut texts
judge_cuts "$work/flat"
printf 'itm-history 4' >"$work/input"
judge 'a first line of no version that is cut' 'line 1: cut'
printf 'itm-history 3\ndepth 65' >"$work/input"
judge 'a depth beyond its limit that is cut' 'line 2: cut'
printf 'itm-history 2\nmemory 0000000000000000\nrestart' >"$work/input"
judge 'a misplaced line that is cut' 'line 3: cut'

# The part of tests/command.sh on texts of scripts: what is refused of them and why, how much there may be, and what a
# script says, part by part. It is read by that script, and uses its functions and variables.

# refused NAME FAULT: the script in $work/input is refused, for this fault as `line N: TEXT`
refused() {
    want_line "itmrun: $2"
    run sched -
    check "$1" 2
}

# refused_each BEGINNING: of each line `FAULT|TEXT` of the input the script of this beginning and this text. Of both,
# `printf` reads what stands after a backslash.
refused_each() {
    while IFS='|' read -r fault text; do
        printf '%b' "$1$text" >"$work/input"
        refused "the script $1$text" "$fault"
    done
}

# printed NAME: the script in $work/input is printed as $work/want_output
printed() {
    : >"$work/want_errors"
    run asm -
    check "$1" 0
}

# repeated COUNT TEXT: the text so often
repeated() {
    awk -v count="$1" -v text="$2" 'BEGIN { for (i = 0; i < count; i++) printf "%s", text }'
}

# canonical MEMORY: the first lines of the print of a script that says of its limits only how large its memory is
canonical() {
    printf '.memory %s\n.arena 0\n.patience 8\n.retries 100\n.commits 4611686018427387903\n' "$1"
}

# each kind of fault in a line of a thread's code, and the order of several on one line
refused_each '.memory 8\n.thread\n' <<'END'
line 3: bad character|set \0001r16 1
line 3: bad character|_ITM_commitTransaction\r
line 3: bad character|set r0 1\r\r\n
line 3: bad character|set r0 \0303\0251
line 3: unknown name|_ITM_RnU8 r0 0
line 5: unknown name|\n\n  Set r1 1
line 3: unknown name|setr1 1
line 3: unknown name|ld3 r1 0
line 3: unknown name|_ITM_memcpyRnWn 0 0 0
line 3: unknown name|.repeat 2
line 3: wrong operand|set r16 1
line 3: wrong operand|set r01 1
line 3: wrong operand|set R1 1
line 3: wrong operand|set r1
line 3: wrong operand|set r1 1 1
line 3: wrong operand|set r1 -1
line 3: wrong operand|set r1 01
line 3: wrong operand|set r1 1_0
line 3: wrong operand|set r1 0x1
line 3: wrong operand|set r1 r2
line 3: wrong operand|bytes r1 0
line 3: wrong operand|bytes r1 0g
line 3: wrong operand|bytes 1 00
line 3: out of range|bytes r1 000000000000000000000000000000000000000000000000000000000000000000
line 3: wrong operand|bytes r1 00000000000000000000000000000000000000000000000000000000000000000
line 3: wrong operand|mov r1
line 3: wrong operand|mov r1 1
line 3: wrong operand|add r1 r2 3
line 3: wrong operand|sub r1 r2 r3 r4
line 3: wrong operand|ltu r1 r2
line 3: wrong operand|ld1 r1 r16
line 3: wrong operand|ld8 1 1
line 3: wrong operand|st8 r1 1
line 3: out of range|st2 18446744073709551616 r1
line 3: wrong operand|ld4 r16 18446744073709551616
line 3: wrong operand|ifnz 1
line 4: wrong operand|ifnz r1\nelse r1
line 4: wrong operand|ifnz r1\nendif r1
line 3: wrong operand|_ITM_beginTransaction r0
line 3: wrong operand|_ITM_beginTransaction r0 pr_hasNoAbort+
line 3: wrong operand|_ITM_beginTransaction r0 -+pr_hasNoAbort
line 3: wrong operand|_ITM_beginTransaction r0 pr_hasNoAbort+pr_hasNoAbort
line 4: wrong operand|_ITM_beginTransaction r0 -\n_ITM_beginTransaction r16 +
line 4: wrong operand|_ITM_beginTransaction r0 -\n_ITM_commitTransaction r0
line 3: wrong operand|_ITM_abortTransaction
line 3: wrong operand|_ITM_abortTransaction outerAbort+userAbort
line 3: wrong operand|_ITM_changeTransactionMode 1
line 3: wrong operand|_ITM_inTransaction
line 3: wrong operand|_ITM_addUserCommitAction 1 2
line 3: wrong operand|_ITM_addUserCommitAction 4294967296 _ITM_noTransactionId r16
line 3: out of range|_ITM_addUserCommitAction 4294967296 _ITM_noTransactionId r1
line 3: wrong operand|_ITM_addUserUndoAction r1 2
line 3: out of range|_ITM_addUserUndoAction 4294967296 2
line 3: wrong operand|_ITM_RU8 1 r1
line 3: wrong operand|_ITM_WU8 r1 1
line 3: wrong operand|_ITM_RU8 r16 99999999999999999999
line 3: out of range|_ITM_RU8 r1 18446744073709551616
line 3: wrong operand|_ITM_LU1
line 3: wrong operand|_ITM_LU1 0 0
line 3: wrong operand|_ITM_LB 0
line 3: wrong operand|_ITM_memcpyRtWn 0 0
line 3: wrong operand|_ITM_memmoveRtWt 0 18446744073709551616 x
line 3: out of range|_ITM_memsetW 0 18446744073709551616 0
line 3: out of range|set r1 18446744073709551616
line 3: wrong operand|.rept
line 3: wrong operand|.rept r1
line 3: out of range|.rept 65537
line 4: wrong operand|.rept 1\n.endr 1
line 3: misplaced|.arena 8
line 4: misplaced|.rept 1\n.memory 8
line 5: misplaced|ifnz r1\nelse\nelse
line 5: misplaced|ifnz r1\nelse\nelse r1
line 3: unbalanced|_ITM_commitTransaction
line 3: unbalanced|else
line 3: unbalanced|endif
line 3: unbalanced|.endr
line 5: unbalanced|_ITM_beginTransaction r0 -\n_ITM_commitTransaction\n_ITM_commitTransaction
line 5: unbalanced|ifnz r1\n_ITM_beginTransaction r0 -\nelse
line 6: unbalanced|ifnz r1\nelse\n.rept 1\nelse
line 5: unbalanced|_ITM_beginTransaction r0 -\nifnz r1\n_ITM_commitTransaction
line 5: unbalanced|.rept 1\nifnz r1\n.endr
line 4: unbalanced|\n_ITM_beginTransaction r0 -\nset r1 1
line 3: unbalanced|_ITM_beginTransaction r0 -\n.thread
line 3: unbalanced|_ITM_beginTransaction r0 -\n.thread 99
line 5: unbalanced|ifnz r0\nelse\n.rept 2\n.thread
line 4: out of range|.rept 2\n.thread 0
line 4: wrong operand|.rept 2\n.thread x
line 3: unbalanced|ifnz r0\n.rept 2\n.endr\nelse
END

# as many instructions as may be, in several sections, and one more
{
    printf '.memory 8\n.thread 31\n'
    repeated 32768 'set r0 0\n'
    printf '.thread\n'
    repeated 32768 'set r0 1\n'
} >"$work/input"
{
    canonical 8
    sed 1d "$work/input"
} >"$work/want_output"
printed 'as many instructions as may be'
printf '\nset r0 0' >>"$work/input"
refused 'one instruction more' 'line 65541: too long'

# repeated_code NAME COUNT CODE: the thread's code is so many times one instruction
repeated_code() {
    printf '%b' ".memory 8\n.thread\n$3" >"$work/input"
    {
        canonical 8
        printf '.thread\n'
        repeated "$2" 'set r0 0\n'
    } >"$work/want_output"
    printed "$1"
}

repeated_code 'as many groups of nothing' 0 '.rept 65536\n.rept 65536\n.rept 65536\n.endr\n.endr\n.endr'
repeated_code 'an instruction as often as may be' 65536 '.rept 65536\nset r0 0\n.endr'
repeated_code 'a group of a group' 65536 '.rept 256\n.rept 256\nset r0 0\n.endr\n.endr'
repeated_code 'a group that stands never' 65536 '.rept 65535\nset r0 0\n.endr\n.rept 0\nset r0 0\n.endr\nset r0 0'
repeated_code 'a group that stands never and has no lines' 1 '.rept 0\n.endr\nset r0 0'
repeated_code 'groups within one that stands never' 1 '.rept 0\nset r1 1\n.rept 0\nset r1 2\n.endr\n.rept 3\nset r1 3\n.endr\nset r1 4\n.endr\nset r0 0'
repeated_code 'a block and a choice that stand never' 1 '.rept 0\n_ITM_beginTransaction r0 -\nifnz r0\nelse\nendif\n_ITM_commitTransaction\n.endr\nset r0 0'
repeated_code 'a group that stands never within one that stands twice' 4 '.rept 2\nset r0 0\n.rept 0\nset r1 1\n.rept 2\nset r1 2\n.endr\n.endr\nset r0 0\n.endr'
repeated_code 'as much that stands never as may be' 65536 '.rept 0\n.rept 65536\nset r1 1\n.endr\n.endr\n.rept 65536\nset r0 0\n.endr'
refused_each '.memory 8\n.thread\n' <<'END'
line 7: too long|.rept 0\n.rept 65536\nset r0 0\nset r0 1\n.endr\n.endr
line 7: too long|.rept 0\n.rept 65536\nset r0 0\n.endr\nset r0 0\n.endr
line 7: too long|.rept 0\n.rept 65536\nset r0 0\n.endr\nifnz r0
line 8: too long|.rept 0\n.rept 2\n.rept 32769\nset r0 0\n.endr\n.endr\n.endr
line 8: too long|.rept 65536\nset r0 0\n.endr\n.rept 0\n.rept 0\nset r0 0\n.endr\n.endr
line 11: too long|.rept 0\n.rept 65536\nset r0 0\n.endr\n.endr\n.rept 32769\nset r0 0\nset r0 0\n.endr
line 5: unbalanced|.rept 0\nifnz r0\n.endr
line 5: unbalanced|ifnz r0\n.rept 0\nendif
line 3: unbalanced|.rept 0\nset r0 0\n.thread
line 4: unbalanced|.rept 0\n.rept 0\nset r0 0\n
line 4: misplaced|.rept 0\n.arena 8\n.endr
line 5: wrong operand|.rept 0\n.rept 0\nset r16 0
line 7: too long|.rept 65536\nset r0 0\n.endr\n.rept 0\nset r0 0\n.endr
line 6: too long|.rept 65536\nset r0 0\n.endr\nifnz r0
line 7: too long|.rept 257\n.rept 256\nset r0 0\n.endr\n.endr
line 7: too long|.rept 65536\nset r0 0\n.endr\n.thread\nset r0 0
END

# as many groups within one another as may be, and one more
{
    printf '.memory 8\n.thread\n'
    repeated 256 '.rept 1\n'
} >"$work/begun"
{
    cat "$work/begun"
    repeated 256 '.endr\n'
} >"$work/input"
{
    canonical 8
    printf '.thread\n'
} >"$work/want_output"
printed 'as many groups within one another as may be'
cp "$work/begun" "$work/input"
refused 'groups that are not ended' 'line 258: unbalanced'
printf 'ifnz r0' >>"$work/input"
refused 'one group more' 'line 259: too long'

# as many items as may be, in several lines, and one more; and a fault of their form goes first
{
    printf '.memory 8\n.schedule 0!'
    repeated 65534 ' 0x1'
    printf '\n.schedule 0!'
} >"$work/items"
{
    cat "$work/items"
    printf '\n.thread'
} >"$work/input"
{
    canonical 8
    printf '.schedule 0!\n'
    repeated 65534 '.schedule 0x1\n'
    printf '.schedule 0!\n.thread\n'
} >"$work/want_output"
printed 'as many items as may be, printed'
{
    cat "$work/items"
    printf ' 1!'
} >"$work/input"
refused 'one item more' 'line 3: too long'
{
    cat "$work/items"
    printf ' 1x0'
} >"$work/input"
refused 'one item more, of no step' 'line 3: out of range'

# as many digits as may be, and one or two more
{
    printf '.memory 65536\n.init 0 '
    repeated 65536 Fe
} >"$work/digits"
{
    cat "$work/digits"
    printf '\n.thread'
} >"$work/input"
{
    canonical 65536
    printf '.init 0 '
    repeated 65536 fe
    printf '\n.thread\n'
} >"$work/want_output"
printed 'as many digits as may be'
{
    printf 'itm-history 1\nmemory '
    repeated 65536 fe
    printf '\nfinal 0 '
    repeated 65536 fe
    echo
} >"$work/want_output"
run sched -
check 'each byte of as many digits' 0
{
    cat "$work/digits"
    printf 00
} >"$work/input"
refused 'two digits more' 'line 2: out of range'
{
    printf '.memory 1048576\n'
    sed 1d "$work/digits"
    printf 00
} >"$work/input"
refused 'two digits more, in a larger memory' 'line 2: out of range'
{
    printf '.memory 1048576\n.init 983040 '
    repeated 65536 Fe
    printf '\n.init 1048575 00\n.thread 64'
} >"$work/input"
{
    canonical 1048576
    printf '.init 983040 '
    repeated 65536 fe
    printf '\n.init 1048575 00\n.thread 64\n'
} >"$work/want_output"
printed 'as many digits at the end of the largest memory'
{
    cat "$work/digits"
    printf 0
} >"$work/input"
refused 'one digit more' 'line 2: wrong operand'

# what a script says is printed part by part
cat >"$work/input" <<'END'
; two threads add one
.memory 16
.init 0 1122334455667788
.init 6 AaBbCc
.patience 2
.retries 0
.commits 5
.arena 64
.schedule 0x3 1x6
.schedule 0!
.thread 2
set r1 1
_ITM_beginTransaction r0 -
_ITM_RU8 r2 0
add r2 r2 r1
_ITM_WU8 0 r2
_ITM_commitTransaction
.thread
.thread 3
set r15 18446744073709551615
END
cat >"$work/want_output" <<'END'
.memory 16
.arena 64
.patience 2
.retries 0
.commits 5
.init 0 1122334455667788
.init 6 aabbcc
.schedule 0x3
.schedule 1x6
.schedule 0!
.thread 2
set r1 1
_ITM_beginTransaction r0 -
_ITM_RU8 r2 0
add r2 r2 r1
_ITM_WU8 0 r2
_ITM_commitTransaction
.thread
.thread 3
set r15 18446744073709551615
END
printed 'each part of a script'

# and done: the last line that writes a byte wins, each thread has its arena, and the first one is not tried again
own=$(repeated 64 00)
cat >"$work/want_output" <<END
itm-history 1
memory 112233445566aabbcc00000000000000
attempt 1 1 0 committed -
arena $own
call _ITM_RU8 0 = 112233445566aabb
call _ITM_WU8 0 122233445566aabb = ok
call _ITM_commitTransaction = ok
end
attempt 0 1 0 conflict -
arena $own
call _ITM_RU8 0 = 112233445566aabb
call _ITM_WU8 0 122233445566aabb = ok
end
final 2 122233445566aabbcc00000000000000
END
echo 'itmrun: thread 0 gave up' >"$work/want_errors"
run sched -
check 'each part of a script, done' 4

# groups within groups, and lines that stand several times
cat >"$work/input" <<'END'
.memory 8
.thread
.rept 2
ifnz r1
.rept 0
ld2 r2 r3
.endr
else
.rept 2
st4 7 r4
.endr
endif
.endr
END
{
    canonical 8
    printf '.thread\n'
    repeated 2 'ifnz r1\nelse\nst4 7 r4\nst4 7 r4\nendif\n'
} >"$work/want_output"
printed 'groups within groups'

# what is not said has its default; a comment holds any bytes
printf '%b' '.memory 65536\r\n\t.thread ; nothing \0377' >"$work/input"
{
    canonical 65536
    printf '.thread\n'
} >"$work/want_output"
printed 'what is not said'

. "$root/tests/script_faults.sh"
. "$root/tests/mistakes.sh"

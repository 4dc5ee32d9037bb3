# Further scripts that are refused, each with its fault: operand by operand, and what crosses or is left open.
# They are read by scripts.sh, and use its functions.

# each kind of fault of a directive, and the order of several on one line
refused_each '' <<'END'
line 1: wrong operand|.memory
line 1: wrong operand|.memory 8 8
line 1: wrong operand|.memory +8
line 1: wrong operand|.memory 08
line 1: out of range|.memory 0\n.thread
line 1: out of range|.memory 12\n.thread
line 1: out of range|.memory 1048584\n.thread
line 1: out of range|.memory 1048577\n.thread
line 1: out of range|.memory 18446744073709551624\n.thread
line 2: misplaced|.memory 8\n.memory 9
line 3: misplaced|.memory 8\n.thread\n.memory 8
line 1: misplaced|.init 0 00
line 3: misplaced|.memory 8\n.thread\n.init 0 00
line 2: wrong operand|.memory 8\n.init 0
line 2: wrong operand|.memory 8\n.init 0 00 00
line 2: wrong operand|.memory 8\n.init 0 0
line 2: wrong operand|.memory 8\n.init 0 0g
line 2: wrong operand|.memory 8\n.init 0 0x00
line 2: wrong operand|.memory 8\n.init r0 00
line 2: wrong operand|.memory 8\n.init 18446744073709551616 123
line 2: out of range|.memory 8\n.init 18446744073709551616 1234
line 2: out of range|.memory 8\n.init 18446744073709551615 1234
line 2: out of range|.memory 8\n.init 8 00
line 2: out of range|.memory 8\n.init 0 001122334455667788
line 1: wrong operand|.patience
line 1: wrong operand|.patience 1 2
line 1: out of range|.patience 0
line 1: out of range|.patience 1001
line 2: misplaced|.patience 5\n.patience
line 3: misplaced|.memory 8\n.thread\n.patience 1
line 1: wrong operand|.retries
line 1: out of range|.retries 10001
line 2: misplaced|.retries 0\n.retries 0
line 3: misplaced|.memory 8\n.thread\n.retries 1
line 1: wrong operand|.arena
line 1: wrong operand|.arena x
line 1: out of range|.arena 4097
line 2: misplaced|.arena 0\n.arena
line 3: misplaced|.memory 8\n.thread\n.arena 1
line 1: wrong operand|.commits -
line 1: out of range|.commits 0
line 1: out of range|.commits 4611686018427387904
line 2: misplaced|.commits 1\n.commits 0
line 3: misplaced|.memory 8\n.thread\n.commits 1
line 1: wrong operand|.restarts
line 1: wrong operand|.restarts 1 2
line 1: wrong operand|.restarts r1
line 1: wrong operand|.restarts -1
line 1: wrong operand|.restarts 00
line 1: wrong operand|.restarts 0x1
line 1: out of range|.restarts 10001
line 1: out of range|.restarts 18446744073709551616
line 1: unknown name|.Restarts 1
line 1: unknown name|.restart 1
line 2: misplaced|.restarts 5\n.restarts
line 2: misplaced|.restarts 0\n.restarts 0
line 3: misplaced|.memory 8\n.thread\n.restarts 1
line 1: wrong operand|.depth
line 1: wrong operand|.depth 1 2
line 1: wrong operand|.depth r1
line 1: wrong operand|.depth -1
line 1: wrong operand|.depth 016
line 1: out of range|.depth 0
line 1: out of range|.depth 65
line 1: out of range|.depth 18446744073709551616
line 1: unknown name|.Depth 16
line 2: misplaced|.depth 5\n.depth
line 2: misplaced|.depth 16\n.depth 16
line 3: misplaced|.memory 8\n.thread\n.depth 1
line 1: wrong operand|.schedule
line 1: wrong operand|.schedule 0
line 1: wrong operand|.schedule x1
line 1: wrong operand|.schedule 0x
line 1: wrong operand|.schedule !
line 1: wrong operand|.schedule 0!!
line 1: wrong operand|.schedule 0X1
line 1: wrong operand|.schedule 0x1x1
line 1: wrong operand|.schedule 00!
line 1: wrong operand|.schedule 0x0 1! 2
line 1: out of range|.schedule 0x0
line 1: out of range|.schedule 0x1000001
line 1: out of range|.schedule 0x18446744073709551616
line 1: out of range|.schedule 18446744073709551616!
line 3: misplaced|.memory 8\n.thread\n.schedule 0!
line 1: out of range|.schedule 0! 1!\n.schedule 2!\n.memory 8\n.thread
line 2: out of range|.schedule 0!\n.schedule 31x5 32x5\n.memory 8\n.thread 32
line 1: out of range|.schedule 63x5 64x5\n.memory 8\n.thread 64
line 1: out of range|.schedule 256!\n.memory 8\n.thread 32
line 1: out of range|.schedule 18446744073709551615x1\n.memory 8\n.thread
line 0: misplaced|.schedule 300!\n.memory 8
line 4: unbalanced|.schedule 300!\n.memory 8\n.thread\n_ITM_beginTransaction r0 -
line 2: wrong operand|.memory 8\n.thread x
line 2: wrong operand|.memory 8\n.thread 1 1
line 2: out of range|.memory 8\n.thread 0
line 2: out of range|.memory 8\n.thread 18446744073709551616
line 2: too long|.memory 8\n.thread 18446744073709551615
line 2: too long|.memory 8\n.thread 65
line 3: too long|.memory 8\n.thread 64\n.thread
line 4: too long|.memory 8\n.thread 63\n.thread 1\n.thread
line 1: misplaced|.thread
line 1: misplaced|set r16 1
line 1: misplaced|_ITM_commitTransaction
line 1: misplaced|.rept 1
line 1: misplaced|.endr
line 1: misplaced|else
line 2: misplaced|.memory 8\n.rept 65537
line 1: misplaced|.thread 0
line 0: misplaced|
END

# characters and names
refused_each '.memory 8\n.thread\n' <<'END'
line 3: bad character|set r1 1\0177
line 3: bad character|\0000 set r1 1
line 3: bad character|set\0013r1 1
line 3: bad character|set r1\r 1
line 3: unknown name|~
line 4: unknown name|;\0000\r\0377;\nfoo
line 3: unknown name|loop:
line 3: unknown name|elseif r1
line 3: unknown name|_ITM_RU16 r1 0
line 3: unknown name|_ITM_WfWU1 0 r1
line 3: unknown name|_ITM_memmoveRnWn 0 0 0
line 3: unknown name|_ITM_memsetR 0 0 0
line 3: unknown name|_itm_commitTransaction
END

# lines before the first thread, and texts without one
refused_each '' <<'END'
line 1: misplaced|.thread x
line 1: misplaced|.rept 65537
line 2: misplaced|.memory 8\n.endr
line 0: misplaced|.schedule 300!
line 1: bad character|.rept\0001
line 1: misplaced|else x
line 2: misplaced|.memory 8\nendif
line 2: misplaced|.memory 8\nifnz 1
line 1: misplaced|_ITM_RU8
line 0: misplaced|.memory 8
line 0: misplaced|; .memory 8\n; .thread
END

# what is ended, crossed or left open
refused_each '.memory 8\n.thread\n' <<'END'
line 4: unbalanced|_ITM_beginTransaction r0 -\nendif
line 5: unbalanced|_ITM_beginTransaction r0 -\n.rept 1\n_ITM_commitTransaction
line 6: unbalanced|ifnz r1\nelse\nendif\nelse
line 4: misplaced|.rept 1\n.arena 1
line 4: unbalanced|set r0 1\nifnz r0\nelse\n.thread
line 4: unbalanced|ifnz r0\n_ITM_beginTransaction r0 -
line 3: wrong operand|else r1
line 3: wrong operand|endif r1
line 3: wrong operand|.endr 1
line 5: unbalanced|ifnz r1\nendif\nendif
line 5: unbalanced|.rept 2\n.endr\n.endr
line 6: unbalanced|ifnz r1\nendif\n.thread\nendif
line 5: unbalanced|ifnz r1\n.rept 1\nelse
line 5: unbalanced|ifnz r1\n.rept 1\nendif
line 6: unbalanced|ifnz r1\nelse\n_ITM_beginTransaction r0 -\nendif
line 6: unbalanced|_ITM_beginTransaction r0 -\nifnz r1\nelse\n_ITM_commitTransaction
line 4: unbalanced|.rept 2\n_ITM_commitTransaction
line 5: unbalanced|.rept 1\n_ITM_beginTransaction r0 -\n.endr
line 6: unbalanced|.rept 2\nifnz r1\nelse\n.endr
line 8: misplaced|ifnz r1\nelse\nifnz r2\nelse\nendif\nelse
line 4: misplaced|_ITM_beginTransaction r0 -\n.schedule 0!
line 3: unbalanced|.rept 2\nset r1 1
line 3: unbalanced|ifnz r1\nset r1 1\nelse
line 3: unbalanced|ifnz r1\n.thread 65
line 3: unbalanced|_ITM_beginTransaction r0 -\nifnz r1\nendif\n.thread
END

# operands of each instruction: too few, too many, of another form or beyond a limit
refused_each '.memory 8\n.thread\n' <<'END'
line 3: wrong operand|_ITM_addUserCommitAction 4294967296 1 0
line 3: wrong operand|_ITM_abortTransaction outerAbort
line 3: wrong operand|set
line 3: wrong operand|set 1 1
line 3: wrong operand|set r 1
line 3: wrong operand|set r100 1
line 3: wrong operand|set r16 18446744073709551616
line 3: wrong operand|bytes r1
line 3: wrong operand|bytes r1 00 00
line 3: wrong operand|bytes 1 000000000000000000000000000000000000000000000000000000000000000000
line 3: wrong operand|bytes r1 00000000000000000000000000000000000000000000000000000000000000000g
line 3: wrong operand|mov r1 r2 r3
line 3: wrong operand|mov 1 r1
line 3: wrong operand|add 1 r2 r3
line 3: wrong operand|and r1 2 r3
line 3: wrong operand|ifnz
line 3: wrong operand|ifnz r1 r2
line 3: wrong operand|ld2 r1
line 3: wrong operand|ld2 r1 0 0
line 3: wrong operand|ld8 1 r1
line 3: out of range|ld8 r1 18446744073709551616
line 3: wrong operand|st1 0
line 3: wrong operand|st4 0 r1 r2
line 3: wrong operand|st4 18446744073709551616 r16
line 3: wrong operand|_ITM_beginTransaction
line 3: wrong operand|_ITM_beginTransaction r0 - -
line 3: wrong operand|_ITM_beginTransaction 0 -
line 3: wrong operand|_ITM_beginTransaction r0 pr_hasNoAbort pr_hasNoIrrevocable
line 3: wrong operand|_ITM_beginTransaction r0 pr_hasnoabort
line 3: wrong operand|_ITM_beginTransaction r0 pr_instrumentedCode
line 3: wrong operand|_ITM_beginTransaction r0 +pr_hasNoAbort
line 3: wrong operand|_ITM_beginTransaction r0 pr_hasNoAbort+-
line 3: wrong operand|_ITM_beginTransaction r0 pr_doesGoIrrevocable+pr_hasNoAbort+pr_hasNoIrrevocable+pr_doesGoIrrevocable
line 3: wrong operand|_ITM_abortTransaction userAbort outerAbort
line 3: wrong operand|_ITM_changeTransactionMode
line 3: wrong operand|_ITM_changeTransactionMode modeSerialIrrevocabl
line 3: wrong operand|_ITM_changeTransactionMode modeSerialIrrevocable modeSerialIrrevocable
line 3: wrong operand|_ITM_inTransaction 1
line 3: wrong operand|_ITM_inTransaction r1 r2
line 3: wrong operand|_ITM_addUserCommitAction 1 _ITM_noTransactionId
line 3: wrong operand|_ITM_addUserCommitAction 1 _ITM_noTransactionId 2 3
line 3: wrong operand|_ITM_addUserCommitAction r1 _ITM_noTransactionId 2
line 3: out of range|_ITM_addUserCommitAction 1 _ITM_noTransactionId 18446744073709551616
line 3: wrong operand|_ITM_addUserUndoAction 1
line 3: wrong operand|_ITM_addUserUndoAction 1 _ITM_noTransactionId 2
line 3: out of range|_ITM_addUserUndoAction 1 18446744073709551616
line 3: wrong operand|_ITM_addUserUndoAction 4294967296 x
line 3: wrong operand|_ITM_RU8 r1
line 3: wrong operand|_ITM_RfWM256 r1 0 0
line 3: wrong operand|_ITM_RaRU1 1 r1
line 3: wrong operand|_ITM_WU8 0
line 3: wrong operand|_ITM_WaRCD 0 r1 r2
line 3: wrong operand|_ITM_WaWU2 r1 1
line 3: out of range|_ITM_WU8 18446744073709551616 r1
line 3: wrong operand|_ITM_WU8 18446744073709551616 r16
line 3: wrong operand|_ITM_LU1 0 1
line 3: out of range|_ITM_LM128 18446744073709551616
line 3: wrong operand|_ITM_LB 0 1 2
line 3: out of range|_ITM_LB 0 18446744073709551616
line 3: wrong operand|_ITM_LB 18446744073709551616 r16
line 3: wrong operand|_ITM_memcpyRnWt 0 0 0 0
line 3: out of range|_ITM_memmoveRtWt 18446744073709551616 0 0
line 3: out of range|_ITM_memmoveRtaRWtaW 0 18446744073709551616 0
line 3: out of range|_ITM_memcpyRtWt 0 0 18446744073709551616
line 3: wrong operand|_ITM_memcpyRtWt 0 18446744073709551616 x
line 3: wrong operand|_ITM_memsetW 0 0
line 3: wrong operand|_ITM_memsetWaW 0 0 0 0
line 3: out of range|_ITM_memsetWaR 0 18446744073709551616 0
line 3: wrong operand|_ITM_memsetW 0x0 18446744073709551616 0
END

# operands and places of directives
refused_each '' <<'END'
line 2: misplaced|.memory 8\n.memory x
line 2: out of range|.memory 8\n.init 7 0011
line 2: misplaced|.arena 0\n.arena 0
line 2: misplaced|.retries 1\n.retries x
line 1: wrong operand|.schedule ; none
line 1: wrong operand|.schedule 0x0 1x1! 2!
line 1: out of range|.schedule 0x1 0x0 2!
line 1: wrong operand|.memory 18446744073709551616 8
line 1: wrong operand|.memory r1
line 1: out of range|.memory 4
line 1: out of range|.memory 18446744073709551616
line 2: wrong operand|.memory 8\n.init
line 2: out of range|.memory 8\n.init 18446744073709551616 00
line 1: wrong operand|.arena 1 2
line 1: wrong operand|.arena 01
line 1: out of range|.arena 18446744073709551616
line 1: wrong operand|.patience r1
line 1: out of range|.patience 18446744073709551616
line 2: misplaced|.patience 5\n.patience 0
line 1: wrong operand|.retries 1 1
line 1: wrong operand|.retries -1
line 1: out of range|.retries 18446744073709551616
line 1: wrong operand|.commits
line 1: wrong operand|.commits 1 1
line 1: wrong operand|.commits 1_0
line 1: out of range|.commits 18446744073709551616
line 1: wrong operand|.schedule !0
line 1: wrong operand|.schedule 0 x1
line 1: wrong operand|.schedule r0!
line 1: wrong operand|.schedule 0x01
line 1: wrong operand|.schedule 18446744073709551616x
line 1: out of range|.schedule 18446744073709551616x1
line 2: out of range|\n.schedule 1x1 2x1\n.memory 8\n.thread 2
line 3: out of range|.schedule 0!\n.memory 8\n.schedule 1!\n.schedule 2!\n.thread
line 2: wrong operand|.memory 8\n.thread r1
line 2: wrong operand|.memory 8\n.thread 0 18446744073709551616
END

# the same in a thread's code
refused_each '.memory 8\n.thread\n' <<'END'
line 3: wrong operand|.rept 1 1
line 3: out of range|.rept 18446744073709551616
line 3: misplaced|.arena x
line 3: misplaced|.patience 0
line 3: misplaced|.retries
line 3: misplaced|.commits 0
line 3: misplaced|.restarts x
line 3: misplaced|.depth x
END

# sections count once, and an end without its beginning goes before their number
refused_each '' <<'END'
line 10: too long|.memory 8\n.thread 2\n.rept 40000\nset r0 1\n.endr\n.thread 3\n.rept 25536\nset r0 1\n.endr\nset r0 1
END

# the same within one section
refused_each '.memory 8\n.thread\n' <<'END'
line 6: unbalanced|.rept 65536\nset r0 1\n.endr\nelse
line 7: too long|.rept 0\n.rept 65536\nset r0 1\nset r0 1\n.endr
END

# groups and blocks count together, and a number beyond its limit goes before their number
{
    printf '.memory 8\n.thread\n'
    repeated 257 'ifnz r1\n'
} >"$work/input"
refused 'one choice too many' 'line 259: too long'
{
    printf '.memory 8\n.thread\n'
    repeated 256 'ifnz r1\n'
    printf '_ITM_beginTransaction r0 -'
} >"$work/input"
refused 'one block too many' 'line 259: too long'
{
    printf '.memory 8\n.thread\n'
    repeated 256 '_ITM_beginTransaction r0 -\n'
    printf '.rept 1'
} >"$work/input"
refused 'one group too many' 'line 259: too long'
{
    printf '.memory 8\n.thread\n'
    repeated 256 '.rept 1\n'
    printf '.rept 65537'
} >"$work/input"
refused 'a group too many, and too often' 'line 259: out of range'

# as many items as may be on one line, and one more on the next one or with one of no events
{
    printf .schedule
    repeated 65536 ' 0!'
    printf '\n.schedule 0!'
} >"$work/input"
refused 'one item more on the next line' 'line 2: too long'
{
    printf .schedule
    repeated 65537 ' 0!'
    printf ' 0x0'
} >"$work/input"
refused 'one item more, and one of no events' 'line 1: out of range'

# the largest and the least that a script may say
cat >"$work/input" <<'END'
.memory 1048576
.arena 4096
.patience 1000
.retries 10000
.commits 4611686018427387903
.restarts 10000
.depth 64
.schedule 63x1000000
.thread 64
END
cp "$work/input" "$work/want_output"
printed 'the largest of each number'
cat >"$work/want_output" <<'END'
.memory 8
.arena 0
.patience 1
.retries 0
.commits 1
.restarts 1
.depth 1
.schedule 0x1
.thread
END
sed 's/^\.thread$/.thread 1/' "$work/want_output" >"$work/input"
printed 'the least of each number'

# the depth is printed where it is not 16, whichever limit a script says first, and where it says it
for depth in 15 17; do
    printf '.depth %s\n.memory 8\n.thread\n' $depth >"$work/input"
    {
        canonical 8
        printf '.depth %s\n.thread\n' $depth
    } >"$work/want_output"
    printed "a depth of $depth"
done
printf '.memory 8\n.depth 16 ; as where it is not said\n.thread\n' >"$work/input"
{
    canonical 8
    printf '.thread\n'
} >"$work/want_output"
printed 'a depth of 16'

# and the restarts where they are not 0, before the depth
printf '.depth 3\n.restarts 2\n.memory 8\n.thread\n' >"$work/input"
{
    canonical 8
    printf '.restarts 2\n.depth 3\n.thread\n'
} >"$work/want_output"
printed 'two restarts, and a depth of 3'
printf '.memory 8\n.restarts 0 ; as where it is not said\n.thread\n' >"$work/input"
{
    canonical 8
    printf '.thread\n'
} >"$work/want_output"
printed 'no restarts'

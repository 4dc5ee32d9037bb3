# The part of tests/command.sh on the largest memory, whose histories are too long to lie beside their scripts: they are made
# here, of zeros and of the one word that is written. It is read by that script, and uses its functions and variables.

# zeros COUNT: so many bytes of zero, as a history spells them
zeros() {
    head -c $((2 * $1)) /dev/zero | tr '\0' 0
}

# written CLOCK: the last line of a history of the largest memory, after its last word is written
written() {
    printf 'final %s ' "$1"
    zeros 1048568
    echo 0100000000000000
}

# largest EVENTS: the script, after so many events. Its last word is written, and one place further the access is refused.
largest() {
    cat >"$work/input" <<END
.memory 1048576
.schedule 0x$1
.thread
set r1 1
_ITM_beginTransaction r0 -
_ITM_WU8 1048568 r1
_ITM_WU8 1048569 r1
_ITM_commitTransaction
END
}

# first_of OUTCOME: the lines of its history up to the commit
first_of() {
    printf 'itm-history 3\ndepth 16\nmemory '
    zeros 1048576
    printf '\nattempt 0 1 0 %s -\narena -\n' "$1"
    echo 'call _ITM_WU8 1048568 0100000000000000 = ok'
    echo 'call _ITM_WU8 1048569 0100000000000000 = refused 2'
}

# judge_largest NAME: what was written is read as a legal history
judge_largest() {
    cp "$work/output" "$work/input"
    judge "$1, judged" legal
}

: >"$work/want_errors"
largest 4
{
    first_of committed
    echo 'call _ITM_commitTransaction = ok'
    echo end
    written 2
} >"$work/want_output"
run sched -
check 'the largest memory' 0
judge_largest 'the largest memory'

# four events are all that it takes: after three the word is stored, and the commit is not over
: >"$work/want_errors"
largest 3
{
    first_of unfinished
    echo end
    written 1
} >"$work/want_output"
run sched -
check 'the largest memory, one event short' 0
judge_largest 'the largest memory, one event short'

# far_words SCRIPT HISTORY: a block that reads 40 words and writes 20 others, all beyond the 8,192th, from the last one
# downwards, and what it leaves of the largest memory: more words than a log or a write set looks through
far_words() {
    awk -v script="$1" -v history="$2" 'BEGIN {
        zero = "0000000000000000"; one = "0100000000000000"
        print ".memory 1048576\n.thread\nset r1 1\n_ITM_beginTransaction r0 -" >script
        print "itm-history 3\ndepth 16" >history
        printf "memory " >history
        for (i = 0; i < 131072; i++) printf zero >history
        print "\nattempt 0 1 0 committed -\narena -" >history
        for (i = 0; i < 60; i++) {
            word = 131071 - 1021 * i
            if (i % 3 < 2) {
                print "_ITM_RU8 r2 " 8 * word >script
                print "call _ITM_RU8 " 8 * word " = " zero >history
            } else {
                print "_ITM_WU8 " 8 * word " r1" >script
                print "call _ITM_WU8 " 8 * word " " one " = ok" >history
                written[word] = 1
            }
        }
        print "_ITM_commitTransaction" >script
        print "call _ITM_commitTransaction = ok\nend" >history
        printf "final 2 " >history
        for (i = 0; i < 131072; i++) printf i in written ? one : zero >history
        print "" >history
    }'
}

# as the schedule says, and on a thread
for command in sched threads; do
    : >"$work/want_errors"
    far_words "$work/input" "$work/want_output"
    run "$command" -
    check "many far words, by $command" 0
    judge_largest "many far words, by $command"
done

# the first version tells of 65,536 bytes, and the third one of a word more
for bytes in 65536 65544; do
    : >"$work/want_errors"
    printf '.memory %s\n.thread\nset r1 1\n' "$bytes" >"$work/input"
    {
        if [ "$bytes" = 65536 ]; then
            echo 'itm-history 1'
        else
            printf 'itm-history 3\ndepth 16\n'
        fi
        printf 'memory '
        zeros "$bytes"
        printf '\nfinal 0 '
        zeros "$bytes"
        echo
    } >"$work/want_output"
    run sched -
    check "a memory of $bytes bytes" 0
done

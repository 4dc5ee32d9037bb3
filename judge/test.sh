#!/bin/sh
# Tests the judge: programs are legal, faults are told, and verdicts are those that are worked out again. Outside the
# gate; needs gcc and g++ with libitm, binutils and python3. Runs on threads are never the same twice: a fault that
# strikes now and then has some runs to be told in.
#
#   sh judge/test.sh [LIBITM]    with the folder of libraries that faults/libitm.sh built, their faults too
#
# The last line is `N passed, M failed`; the exit status is 0 where none failed. ITMRUN=PROGRAM takes another judge.
here=$(CDPATH= cd -- "$(dirname -- "$0")" && pwd) || exit 1
ITMRUN=${ITMRUN:-$here/../itmrun} ITMRUN_PROVED=1
WORK=$(mktemp -d) || exit 1
export ITMRUN ITMRUN_PROVED WORK PYTHONDONTWRITEBYTECODE=1
trap 'rm -rf "$WORK"' EXIT
libraries=${1:-}
methods='ml_wt gl_wt serial serialirr serialirr_onwrite default'
passed=0
failed=0

if ! echo 'int main(void) { __transaction_atomic { } }' | gcc -fgnu-tm -x c -o "$WORK/empty" - 2>/dev/null; then
    echo 'skipped: gcc has no -fgnu-tm here'
    echo '0 passed, 0 failed'
    exit 0
fi

# the repository's own judge may have to be proved and built first, and tells so on standard error
printf 'itm-history 1\nmemory 0000000000000000\nfinal 0 0000000000000000\n' | "$ITMRUN" check - >/dev/null || exit 1

# result NAME STATUS: one more test, whose last judgement is in $WORK/told
result() {
    if [ "$2" = 0 ]; then
        passed=$((passed + 1))
    else
        failed=$((failed + 1))
        echo "failed: $1"
        cat "$WORK/told"
    fi
}

# printed PROGRAM THREADS METHOD [FOLDER]
printed() {
    file=$here/${4:-programs}/$1
    [ -f "$file" ] || file=$file.c
    sh "$here/judge.sh" "$file" "$2" "$3"
}

judge() {
    printed "$@" >"$WORK/told" 2>&1
}

# gives NAME STATUS WORDS COMMAND..: what a command ends with, and tells
gives() {
    name=$1 due=$2 words=$3
    shift 3
    "$@" >"$WORK/told" 2>&1
    [ $? = "$due" ] && grep -q -e "$words" "$WORK/told"
    result "$name has to give status $due and tell: $words" $?
}

# refused WORD..: words that name no run are told with the usage, and nothing is judged
refused() {
    sh "$here/judge.sh" "$@" >"$WORK/printed" 2>"$WORK/told"
    [ $? = 1 ] && [ ! -s "$WORK/printed" ] && grep -q '^usage: ' "$WORK/told"
    result "the words [$*] have to be refused" $?
}

# tells WORDS: the last judgement does
tells() {
    grep -q -e "$1" "$WORK/told"
    result "it has to tell: $1" $?
}

# narrow RUN OUTCOMES: no attempt of these outcomes has a range open
narrow() {
    awk -v outcomes="$2" '$1 == "attempt" && $6 ~ outcomes { n++; wide += $4 != $5 } END { exit !n || wide }' \
        "$WORK/$1.recording"
    result "$1, ${ORDER:-outside}, has to leave no range open" $?
}

# legal PROGRAM THREADS METHOD [FOLDER]: again where libitm itself ended the program, as it may under `default`
legal() {
    for turn in 1 2 3 4 5 6 7 8 9 10; do
        judge "$@"
        status=$?
        [ "$3" = default ] && grep -q 'signal 6' "$WORK/told" || break
    done
    [ $status = 0 ] && ! grep -q 'the program ended' "$WORK/told" # it has seen nothing wrong itself
    result "$1 on $2 threads under $3, ${ORDER:-outside}, has to be legal" $?
}

# told NAME PROGRAM METHOD [FOLDER]: the fault that the environment plants shows in one of some runs
told() {
    for turn in 1 2 3 4 5 6 7 8 9 10; do
        judge "$2" 4 "$3" "${4:-programs}"
        [ $? = 3 ] && break
    done
    grep -q ' bad ' "$WORK/told"
    result "$1 has to be told in $2 under $3" $?
}

# words
bank=$here/programs/bank.c
for word in ml_wt 0 00 02 -1 +2 2x 0x2 2.0 ' 2' '' 4097 99999999999999999999; do refused "$bank" "$word" ml_wt; done
refused
refused ''
refused "$here/programs/no.c" 2
refused "$here/programs" 2
refused ml_wt "$bank"
refused 2 "$bank" ml_wt
refused "$bank" ml_wt
refused "$bank" ml_wt 2
refused "$bank" 2 ''
refused "$bank" 2 3
refused "$bank" 2 "$bank"
refused "$bank" 2 ml_wt gl_wt

# a clone whose judge is not built says so, and one whose judge is does not
mkdir -p "$WORK/clone/crates/itmrun/src" "$WORK/clone/crates/itmrun/out"
cp -R "$here" "$WORK/clone/judge"
printf '#!/bin/sh\nexec "%s" "$@"\n' "$ITMRUN" >"$WORK/clone/itmrun"
cp "$WORK/clone/itmrun" "$WORK/clone/crates/itmrun/out/itmrun.built"
touch -d '1 hour ago' "$WORK/clone/crates.txt" "$WORK/clone/crates/itmrun/src/main.rt"
chmod +x "$WORK/clone/itmrun"
# first_words: what a judgement there has on standard error
first_words() {
    (unset ITMRUN && sh "$WORK/clone/judge/judge.sh" "$here/tests/none.c" 1 ml_wt) 2>"$WORK/told" >"$WORK/printed"
}
first_words
tells 'built first: some 20 minutes'
install "$WORK/clone/crates/itmrun/out/itmrun.built" "$WORK/clone/crates/itmrun/out/itmrun"
first_words
[ ! -s "$WORK/told" ]
result 'nothing has to be said of a judge that is built' $?
touch -d 'next hour' "$WORK/clone/crates/itmrun/src/main.rt"
first_words
tells 'built first: some 20 minutes'

# programs that are legal
for program in bank counters list words cancel relaxed heap mixed pages copies; do
    for threads in 2 4; do
        for method in ml_wt gl_wt; do
            ARGS=100 legal $program $threads $method
        done
    done
    ARGS=100 ORDER=inside legal $program 4 ml_wt
done
for method in $methods; do
    ARGS=200 legal heap 4 $method
done
RUNTIME=$(gcc -print-file-name=libitm.so.1) ARGS=100 legal bank 4 ml_wt

# C++, and programs of several files
for method in ml_wt gl_wt serial; do ARGS=100 legal tally.cpp 4 $method tests; done
ARGS=100 SOURCES="$here/tests/half.cc" legal halves 4 ml_wt tests
CC="gcc -DNO=1" CFLAGS='-O1 -DYES=1' LIBS=-lm legal given 1 ml_wt tests
gives 'a source file that is not given' 1 'undefined reference' printed halves 4 ml_wt tests
SOURCES="$here/tests/half.h" gives 'a source file of no language' 1 'a source file ends in' printed halves 4 ml_wt tests
SOURCES="$here/tests/no.c" gives 'a source file that is not there' 1 'there is no file' printed halves 4 ml_wt tests
SOURCES=-half.c gives 'a source file named as an option' 1 'is named as ./-' printed halves 4 ml_wt tests
mkdir -p "$WORK/named"
cp "$here/programs/bank.c" "$WORK/named/-bank.c"
cp "$here/programs/program.h" "$WORK/named"
gives 'a program named as an option' 0 legal sh -c 'cd "$1" && sh "$2" -bank.c 2 ml_wt' - "$WORK/named" "$here/judge.sh"
ITMRUN=/bin/true gives 'a judge to which all is legal' 1 'does not judge' printed bank 2 ml_wt
ITMRUN=/bin/false gives 'a judge to which nothing is' 1 'does not judge' printed bank 2 ml_wt
CXX=no-compiler gives 'a compiler that is not there' 1 no-compiler printed tally.cpp 4 ml_wt tests

# how narrow the ranges are
for order in outside inside; do
    ARGS=60 ORDER=$order legal cancel 1 ml_wt
    ORDER=$order narrow cancel.1.ml_wt .
done
ARGS=100 ORDER=inside legal bank 4 ml_wt
ORDER=inside narrow bank.4.ml_wt '^(committed|readonly)$'

# each barrier is told once; a long double is told as two words
CFLAGS='-O2 -mavx' judge barriers 1 ml_wt tests && awk '
    BEGIN {
        split("R RaR RaW RfW W WaR WaW", barriers)
        split("U1 U2 U4 U8 F D CF CD M64 M128 M256", types)
        for (i in barriers)
            for (k in types) due["_ITM_" barriers[i] types[k]] = 1
        due["_ITM_RU8"] = due["_ITM_RU2"] = 13
        due["_ITM_WU8"] = due["_ITM_WU2"] = 10
        due["_ITM_WU4"] = 2
        due["_ITM_commitTransaction"] = 1
    }
    $1 == "call" { due[$2]-- }
    END { for (name in due) wrong += due[name] != 0; exit wrong != 0 }' "$WORK/barriers.1.ml_wt.recording"
result 'each barrier has to be told once' $?

# what is no history of a whole run, and what cannot be judged
gives 'a block that is freed and still reached' 3 'had read a pointer to it' printed freed 1 ml_wt tests
gives 'a pointer that the program kept' 3 'a program that kept one past .* is wrong' printed kept 1 ml_wt tests
tells 'kept.c:[0-9]* asked for'
tells 'committed, by one thread alone'
gives 'a plain store' 3 'without a transaction' printed plain 1 ml_wt tests
! grep -q 'as it is freed' "$WORK/told"
result 'a plain store has to be told as no freed memory' $?
tells "the program wrote $WORK/plain.1.ml_wt.out\$"
grep -q stored "$WORK/plain.1.ml_wt.out"
result 'what the program wrote has to be kept' $?
(unset WORK && printed plain 1 ml_wt tests) >"$WORK/told" 2>&1
kept=$(sed -n 's/^ *the program wrote //p' "$WORK/told")
grep -q stored "$kept"
result 'what the program wrote has to be kept without WORK' $?
case $kept in */plain.1.ml_wt.out) rm -rf "$(dirname "$kept")" ;; esac
gives 'no transaction' 1 'no transaction was recorded' printed none 4 ml_wt tests
printf 'itm-recording 1\nprogram 0\nunfinished 1\n' >"$WORK/none.recording"
gives 'a recording without attempts' 1 'nothing to judge' python3 "$here/settle/settle.py" "$WORK/none.recording" \
    "$WORK/none.history" "$WORK/empty"
gives 'a crash' 4 'stopped: signal 4' printed crash 1 ml_wt tests
gives 'a large status' 0 'the program ended with status 200' printed status 1 ml_wt tests
LIMIT=2 gives 'a hang' 4 'stopped: signal 15' printed hang 1 ml_wt tests
tells 'LIMIT: it had run for 2 seconds'
CALLS=1000 gives 'more calls than are recorded' 4 'stopped: CALLS' printed bank 4 ml_wt
awk '/^(attempt|call|end)/ { n++ } END { exit !(n >= 500 && n <= 1100) }' "$WORK/bank.4.ml_wt.recording"
result 'so many calls have to be recorded' $?
for calls in 9 10 11 17 18 19; do # around the end of a commit and of a cancel
    CALLS=$calls gives "the first $calls calls" 4 legal printed cancel 1 ml_wt
    [ "$(grep -c 'call _ITM_commitTransaction' "$WORK/cancel.1.ml_wt.recording")" = 1 ]
    result "the first $calls calls have one commit" $?
done
CALLS=1k gives 'a misspelled number of calls' 1 'CALLS is a number' printed bank 4 ml_wt
gives 'a misspelled method' 1 'no method mlwt' printed bank 4 mlwt
ORDER=insde gives 'a misspelled order' 1 'outside or inside' printed bank 4 ml_wt
WRITES=bufered gives 'misspelled writes' 1 'in_place or buffered' printed bank 4 ml_wt
python3 "$here/tests/undecided.py" 20 >"$WORK/undecided.recording"
gives 'twenty commits in any order' 4 undecided python3 "$here/settle/settle.py" "$WORK/undecided.recording" \
    "$WORK/undecided.history" "$WORK/empty"

# more than a history holds
ARGS=1200 legal mixed 4 gl_wt
cp "$WORK/mixed.4.gl_wt.recording" "$WORK/long.recording"
[ -f "$WORK/mixed.4.gl_wt.history.2" ]
result 'a long run has to be told in pieces' $?
judge_long() {
    python3 "$here/tests/impatient.py" "$1" "$WORK/long.recording" "$WORK/long.history" "$WORK/mixed" 2>"$WORK/told" \
        >"$WORK/printed"
}
judge_long 0.05
tells '^judge: [0-9]* s: [0-9]* attempts are read$'
tells '^judge: [0-9]* s: [0-9]* of [0-9]* commits have found a place$'
judge_long 600
[ ! -s "$WORK/told" ] && grep -q '^legal' "$WORK/printed"
result 'what is judged at once needs no word of progress' $?

# the fault of libitm, where a run without the judge shows it too
gcc -O2 -fgnu-tm -o "$WORK/cancelled" "$here/programs/cancelled.c" && "$WORK/cancelled" >"$WORK/cancelled.out"
for method in $methods; do
    if grep -q 'x is 1' "$WORK/cancelled.out"; then
        ARGS=100 judge undo 2 $method
        grep -q 'bad reply' "$WORK/told" && grep -q 'is shared.tried' "$WORK/told"
        result "the fault of libitm has to be told under $method" $?
    else
        ARGS=100 legal undo 2 $method
    fi
done
if grep -q 'x is 1' "$WORK/cancelled.out"; then
    ARGS=60 gives 'an outer cancel under serial' 3 'is shared.tried' printed outer 2 serial
fi
ARGS=60 legal outer 1 ml_wt

# faults that a library between the recorder and the runtime plants
gcc -O2 -fPIC -shared -o "$WORK/wrapper.so" "$here/faults/wrapper.c"
export BELOW="$WORK/wrapper.so" ONE_IN=100
FAULT=stale told stale bank ml_wt
FAULT=stale told stale heap gl_wt
FAULT=drop told drop counters gl_wt
FAULT=drop told drop heap ml_wt
FAULT=naked told naked cancel ml_wt
FAULT=blind ONE_IN=10 told blind counters ml_wt
FAULT=wide told wide cancel ml_wt
FAULT=free told free heap ml_wt
FAULT=stale told stale tally.cpp ml_wt tests
tells 'is tally\.t\|which tally\.cpp:[0-9]* asked for'
unset BELOW ONE_IN

# faults in libitm itself; TESTED.md lists those that no run tells
for library in ${libraries:+"$libraries"/*.so}; do
    name=$(basename "$library" .so)
    export RUNTIME="$library"
    case $name in
    plain) ARGS=100 legal bank 4 ml_wt ;;
    begin-repaired) ARGS=100 legal cancel 4 default ;;
    serial-repaired) ARGS=100 legal undo 4 ml_wt ;;
    ml-no-incarnation | gl-rollback-same-version) ;;
    gl-*) told "$name" counters gl_wt ;;
    ml-first-stripe-alone) told "$name" pages ml_wt ;;
    ml-load-unchecked) ARGS=1000 told "$name" pages ml_wt ;;
    log-forgotten) told "$name" cancel serial ;;
    free-* | *-frees-*) told "$name" heap ml_wt ;;
    *) told "$name" counters ml_wt ;;
    esac
done
unset RUNTIME

# this repository's own runtime, where it is built; it buffers writes
own=$here/../compiled/out/libitm.so.1
if [ -f "$own" ]; then
    export RUNTIME="$own" WRITES=buffered
    for name in bank cancel copies counters heap list mixed relaxed words; do ARGS=100 legal $name 4 default; done
    ARGS=100 legal undo 2 default
    export BELOW="$WORK/wrapper.so" ONE_IN=100
    FAULT=stale told stale bank default
    FAULT=drop told drop counters default
    FAULT=naked told naked bank default
    unset RUNTIME WRITES BELOW ONE_IN
fi

# changed copies of a legal run
ARGS=100 legal counters 4 gl_wt
for kind in recording history; do cp "$WORK/counters.4.gl_wt.$kind" "$WORK/run.$kind"; done
python3 "$here/tests/changes.py" "$ITMRUN" "$WORK" >"$WORK/told" || echo '0 passed, 1 failed' >>"$WORK/told"
sed '$d' "$WORK/told"
last=$(tail -n 1 "$WORK/told")
passed=$((passed + ${last%% *}))
last=${last#*, }
failed=$((failed + ${last%% *}))

echo "$passed passed, $failed failed"
[ "$failed" = 0 ]

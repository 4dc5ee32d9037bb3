#!/bin/sh
# How fast `itmrun check` reads and judges, in one table: the bytes of a history, the seconds of a run, and the most
# memory that it held.
#
# - `writers`: attempts that read a word of a memory of 65,536 bytes, add one to it and write it back, each in its place.
# - `counter`: such attempts on one word of a memory of 8 bytes.
# - `readers`: every second attempt is one that commits, and the others, which come last, read the memory that some of
#   the commits left.
# - `restarts`: attempts with a block each that ran again, from an arena of 8 bytes.
# - `blocks`: one attempt with as many such blocks as the row has attempts.
# - `arenas`: one attempt with a tenth as many, from an arena of 4,096 bytes, for up to 10,000 blocks.
#
# A run includes the start of the process and the reading of the file. The best of some runs is told. Needs a `date`
# that prints nanoseconds. `sh bench/check.sh N` leaves out histories of more than N attempts.

most=${1:-1000000}
root=$(CDPATH= cd -- "$(dirname -- "$0")/.." && pwd) || exit 1
work=$(mktemp -d) || exit 1
trap 'rm -rf "$work"' EXIT

# builds the program, if it has to be, before anything is timed
ITMRUN_PROVED=1 "$root/itmrun" check "$root/examples/counter.history" >/dev/null || exit 1
program=$root/crates/itmrun/out/itmrun

# history ATTEMPTS WORDS READERS: of these, so many in a hundred only read
history() {
    awk -v attempts="$1" -v words="$2" -v readers="$3" '
    function word(n) {
        return sprintf("%02x%02x%02x0000000000", n % 256, int(n / 256) % 256, int(n / 65536))
    }
    function memory(  i, s) {
        s = ""
        for (i = 0; i < words; i++) s = s word(at[i] + 0)
        return s
    }
    BEGIN {
        print "itm-history 1\nmemory " memory()
        commits = attempts - int(attempts * readers / 100)
        for (i = 0; i < commits; i++) {
            w = i % words
            print "attempt " i % 32 " 1 " i " committed -\narena -"
            print "call _ITM_RU8 " 8 * w " = " word(at[w] + 0)
            print "call _ITM_WU8 " 8 * w " " word(++at[w]) " = ok"
            print "call _ITM_commitTransaction = ok\nend"
        }
        # of one word: after so many commits it has that number
        for (i = commits; i < attempts; i++) {
            seen = (i * 7919) % commits
            print "attempt " i % 32 " 1 " seen " readonly -\narena -"
            print "call _ITM_RU8 0 = " word(int((seen + words - 1) / words))
            print "call _ITM_RU8 0 = " word(int((seen + words - 1) / words))
            print "call _ITM_commitTransaction = ok\nend"
        }
        print "final " 2 * commits " " memory()
    }'
}

# again ATTEMPTS BLOCKS BYTES: the history of so many attempts, each with so many blocks that ran again from so many bytes
again() {
    awk -v attempts="$1" -v blocks="$2" -v bytes="$3" '
    BEGIN {
        while (bytes-- > 0) arena = arena "00"
        print "itm-history 2\nmemory 0000000000000000"
        for (i = 0; i < attempts; i++) {
            print "attempt " i % 32 " 1 0 readonly -\narena " arena
            for (j = 0; j < blocks; j++) {
                print "call _ITM_beginTransaction - = code 5\nrestart " arena
                print "call _ITM_RU8 0 = 0000000000000000\ncall _ITM_commitTransaction = ok"
            }
            print "call _ITM_commitTransaction = ok\nend"
        }
        print "final 0 0000000000000000"
    }' >"$work/history"
}

# judged NAME ATTEMPTS: the best of five runs on $work/history
judged() {
    best=0
    for turn in 1 2 3 4 5; do
        start=$(date +%s%N)
        answer=$("$program" check "$work/history")
        end=$(date +%s%N)
        if [ "$answer" != legal ]; then
            echo "bench: $1 of $2 attempts: $answer" >&2
            exit 1
        fi
        took=$((end - start))
        if [ "$best" = 0 ] || [ "$took" -lt "$best" ]; then best=$took; fi
    done
    kept=-
    if [ -x /usr/bin/time ]; then
        kept=$(/usr/bin/time -f %M "$program" check "$work/history" 2>&1 >/dev/null)
    fi
    awk -v name="$1" -v attempts="$2" -v bytes="$(wc -c <"$work/history")" -v time="$best" -v kept="$kept" 'BEGIN {
        printf "%-8s %9d %11d %10.3f %11s\n", name, attempts, bytes, time / 1e9, kept
    }'
}

printf '%-8s %9s %11s %10s %11s\n' history attempts bytes seconds 'kB of memory'
for attempts in 1000 10000 100000 1000000; do
    [ "$attempts" -le "$most" ] || continue
    history "$attempts" 8192 0 >"$work/history"
    judged writers "$attempts"
    history "$attempts" 1 0 >"$work/history"
    judged counter "$attempts"
    history "$attempts" 8192 50 >"$work/history"
    judged readers "$attempts"
    again "$attempts" 1 8
    judged restarts "$attempts"
    again 1 "$attempts" 8
    judged blocks "$attempts"
    if [ "$attempts" -le 100000 ]; then
        again 1 $((attempts / 10)) 4096
        judged arenas $((attempts / 10))
    fi
done

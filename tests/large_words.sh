# The part of tests/command.sh on words of 256 MiB, which two threads of the program large_words share where a vector's cells
# lie: that it gets by with 10 seconds, and with less room than a second copy would take, and what it says of words that it
# cannot take. It is read by that script, and uses its functions and variables.

# proves and builds the program, where it is not there or a source is newer (rt itself would build its libraries anew, as
# `rt ci` has left them)
large_words=$root/crates/large_words/out/large_words
newer=$(find "$root/crates.txt" "$root"/crates/*/src "$root"/crates/*/specs "$root"/crates/*/proofs -newer "$large_words" 2>&1 | head -n 1)
[ -z "$newer" ] || (cd "$root/crates/large_words" && rt run -- 1) >"$work/told" 2>&1 || cat "$work/told"

# large WORD..: the program, with so much time and room
large() {
    (ulimit -v 500000 && exec timeout 10 "$large_words" "$@") >"$work/output" 2>"$work/errors"
    status=$?
}

: >"$work/want_errors"
cp "$root/crates/large_words/stdout" "$work/want_output"
large
check 'words of 256 MiB' 0
large 256
check 'words of 256 MiB, where it is said' 0
echo '3 MiB in place: 256 commits by two threads, and then words of the sum 77309216000' >"$work/want_output"
large 3
check 'words of 3 MiB' 0

want_line 'large_words: usage: large_words [MEBIBYTES], a number from 1 to 32767; 256 where it is not said'
for word in 0 32768 18446744073709551616 -1 1.5 x ''; do
    large "$word"
    check "words of '$word' MiB" 1
done
large 1 1
check 'two words of large_words' 1
want_line 'large_words: no memory'
large 32767
check 'words of 32 GiB, and no room for them' 4

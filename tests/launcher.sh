# The part of tests/command.sh on the launcher: what it runs, that what it hands on does not depend on which, and what it
# answers itself. Of the unproved sources themselves the last case is.

# a copy of the launcher beside stand-ins: an `rt` that notes that it was called, and runs the proved program as `rt try`
# runs the unproved one, and a build.sh that has the program at once
copy=$work/copy
built=$copy/crates/itmrun/out/itmrun
mkdir -p "$copy/crates/itmrun/src" "$copy/crates/itmrun/out" "$copy/bin" "$work/here"
cp "$root/itmrun" "$root/try.sh" "$root/crates.txt" "$copy"
cat >"$copy/build.sh" <<END
echo 'itmrun: proved 1 of 1: itmrun'
cp "$root/crates/itmrun/out/itmrun" "$built"
END
cat >"$copy/bin/rt" <<END
#!/bin/sh
: >"$work/called"
shift 2
cd / && "$root/crates/itmrun/out/itmrun" "\$@" </dev/null
status=\$?
echo "checked: ended status=\$status" >&2
echo 'races: not looked for, since a kit has no ThreadSanitizer' >&2
echo "run=ended status=\$status runners=1 races=unchecked proved=no" >&2
exit \$status
END
chmod +x "$copy/bin/rt"
unproved='itmrun: not proved on this machine yet; this answer is of the unproved sources. sh build.sh proves and builds: some 20 minutes on four processors, 40 on two'

# launcher WORD..: the copy, from a folder of its own
launcher() {
    cd "$work/here" && PATH=$path ITMRUN_PROVED=$only exec sh "$copy/itmrun" "$@"
}

# launch WORD..: the copy on $work/input
launch() {
    (launcher "$@") <"$work/input" >"$work/output" 2>"$work/errors"
    status=$?
}

# both NAME STATUS WORD..: the unproved answer is the proved one, behind the line that says what it is
both() {
    name=$1 wanted=$2
    shift 2
    (cd "$work/here" && exec "$program" "$@") <"$work/input" >"$work/want_output" 2>"$work/proved_errors"
    { echo "$unproved" && cat "$work/proved_errors"; } >"$work/want_errors"
    rm -f "$built"
    launch "$@"
    check "$name, unproved" "$wanted"
    cp "$work/proved_errors" "$work/want_errors"
    cp "$root/crates/itmrun/out/itmrun" "$built"
    launch "$@"
    check "$name, proved" "$wanted"
}

# ask WORD..: the proved program's answer, which is the wanted one
ask() {
    (cd "$work/here" && exec "$root/crates/itmrun/out/itmrun" "$@") \
        <"$work/input" >"$work/want_output" 2>"$work/want_errors"
    asked=$?
}

# tried NAME STATUS WORD..: by try.sh alone the answer is the program's too, behind that line
tried() {
    name=$1 wanted=$2
    shift 2
    ask "$@"
    { echo "$unproved" && cat "$work/want_errors"; } >"$work/told"
    cp "$work/told" "$work/want_errors"
    (cd "$work/here" && PATH=$path exec sh "$copy/try.sh" "$@") <"$work/input" >"$work/output" 2>"$work/errors"
    status=$?
    check "$name, by try.sh" "$wanted"
}

# at_once NAME STATUS WORD..: where nothing is built, the launcher's own answer is the program's, and nothing is run for it
at_once() {
    name=$1 wanted=$2
    shift 2
    ask "$@"
    rm -f "$built" "$work/called"
    launch "$@"
    [ "$asked" = "$wanted" ] || status="$status, and the program's is $asked"
    [ ! -e "$work/called" ] || status="$status, and not at once"
    check "$name, at once" "$wanted"
}

only= path=$copy/bin:$PATH
cp "$root/examples/lost_update.itm" "$work/here/script"
cp "$work/here/script" "$work/here/-x"
cp "$root/tests/rows/partial_write_back.itm" "$work/here/impatient"
cp "$work/here/impatient" "$work/input"
printf 'itm-history 1\nmemory 0000000000000000\nfinal 1 0000000000000000\n' >"$work/here/no run"
both 'a script by its name' 0 sched script
both 'a script by its whole path' 0 sched "$work/here/script"
both 'a script whose name begins with a dash' 0 sched -- -x
both 'a script that is printed' 0 asm script
both 'a script that is read as standard input' 4 sched -
both 'a script that is read as a device' 4 sched /dev/stdin
ln -s /dev/stdin "$work/here/in"
both 'a link to standard input' 4 sched in
both 'a device that never ends' 2 sched /dev/zero
both 'a thread that gives up' 4 sched impatient
both 'no history' 2 check script
both 'no script' 2 sched 'no run'
both 'a history that is not legal' 3 check 'no run'

# names beyond ASCII, and beyond UTF-8
greek=$(printf '\316\262') latin=$(printf '\337')
cp "$work/here/script" "$work/here/$greek"
both 'a name beyond ASCII' 0 sched "$greek"
both 'a name that is no UTF-8' 1 sched "$latin"

# what the launcher answers itself, also where only the proved program is wanted
for only in '' 1; do
    at_once 'no words' 1
    at_once 'three words' 1 sched script script
    at_once 'a flag' 1 --help sched script
    at_once 'no file' 5 sched absent
    ! command -v iconv >/dev/null || at_once 'no file, by a name beyond ASCII' 5 sched "$greek$greek"
    at_once 'a file in a file' 5 asm script/absent
    at_once 'an empty name' 5 threads ''
    at_once 'a folder' 5 check .
    # who may read everything may read this too
    [ -r "$work/locked" ] || at_once 'a file that may not be read' 5 sched "$work/locked"
done
tried 'no words' 1
tried 'three words' 1 sched script script
tried 'a flag' 1 --help sched script
tried 'no file' 5 sched absent
tried 'an empty name' 5 sched ''
tried 'a folder' 5 check .

# Each list of up to three words, and of up to four of some: the launcher answers it just where the program tells of
# wrong words, or of a file that cannot be read, and as it does. (Any other list comes to the build, which here fails.)
cp "$copy/build.sh" "$work/build.sh"
printf ': >"%s"\nexit 1\n' "$work/called" >"$copy/build.sh"
awk 'function lists(list, more,    i) {
    print list
    for (i = 1; more > 0 && i <= n; i++) lists(list " " word[i], more - 1)
}
BEGIN {
    n = split("'"''"' sched - -- -x absent script", word, " ")
    lists("", 3)
    n = split("sched -- absent", word, " ")
    lists("", 4)
}' >"$work/lists"

# agrees WORD..: so it is with these words
agrees() {
    ask "$@"
    rm -f "$work/called"
    launch "$@"
    case $asked in
    1 | 5) [ "$status" = "$asked" ] && cmp -s "$work/output" "$work/want_output" && cmp -s "$work/errors" "$work/want_errors" ;;
    *) [ "$status" = 127 ] && [ -e "$work/called" ] ;;
    esac
}
rm -f "$built"
only=1
while read -r list; do
    eval "agrees $list" || echo "$list"
done <"$work/lists" >"$work/others"
cp "$work/others" "$work/output"
for file in want_output want_errors errors; do : >"$work/$file"; done
status=$(wc -l <"$work/lists")
check 'lists of words' 521
cp "$work/build.sh" "$copy/build.sh"
only=

# Standard input that cannot be read is told at once too, any other is left as it is, and where the line cannot be
# written, the status says so.
want_line 'itmrun: reading failed'
(launcher sched -) <&- >"$work/output" 2>"$work/errors"
status=$?
check 'a closed input, at once' 5
(launcher sched -) <"$work" >"$work/output" 2>"$work/errors"
status=$?
check 'a folder as input, at once' 5
cp "$work/input" "$work/want_output"
{
    (launcher sched absent) 2>"$work/errors"
    status=$?
    cat
} <"$work/input" >"$work/output"
check 'input that is not read' 5
for file in want_output want_errors output errors; do : >"$work/$file"; done
(launcher --help) >"$work/output" 2>&-
status=$?
check 'wrong words, and closed errors, at once' 5
if [ -w /dev/full ]; then
    (launcher --help) >"$work/output" 2>/dev/full
    status=$?
    check 'wrong words, and full errors, at once' 5
fi
: <"$work/pipe" &
exec 3>"$work/pipe"
wait $!
(launcher --help) >"$work/output" 2>&3 3>&-
status=$?
exec 3>&-
check 'wrong words, and errors that nobody reads, at once' 5

# answers that cannot be written
rm -f "$built"
: >"$work/want_output"
: >"$work/output"
{ echo "$unproved" && echo 'itmrun: writing failed'; } >"$work/want_errors"
if [ -w /dev/full ]; then
    (launcher sched impatient) >/dev/full 2>"$work/errors"
    status=$?
    check 'full output, unproved' 5
fi
(launcher sched impatient) >&- 2>"$work/errors"
status=$?
check 'closed output, unproved' 5

# nothing unproved is run where only the proved program is wanted, and nothing is said once it is there
only=1
echo 'itmrun: proved 1 of 1: itmrun' >"$work/want_errors"
"$program" sched "$work/here/script" >"$work/want_output"
launch sched script
check 'the program is proved first' 0
: >"$work/want_errors"
launch sched script
check 'the program is proved' 0
only=
launch sched script
check 'a proved program says nothing of it' 0
# (whatever the program is made of may be newer than it)
mkdir -p "$copy/crates/other/src" "$copy/crates/other/specs" "$copy/crates/other/proofs"
echo "$unproved" >"$work/want_errors"
for newer in crates.txt crates/itmrun/src crates/other/src crates/other/specs crates/other/proofs; do
    touch "$built"
    sleep 0.1
    touch "$copy/$newer"
    launch sched script
    check "$newer is newer than the program" 0
done
only=0
launch sched script
check 'a program that need not be proved' 0
only=1
echo 'itmrun: proved 1 of 1: itmrun' >"$work/want_errors"
launch sched script
check 'a program that is not current is proved anew' 0
only=

# a pipe by its name is left to the program (the last line ends a writer whom nobody has read)
mkfifo "$work/here/named"
rm -f "$built"
echo "$unproved" >"$work/want_errors"
cat "$work/here/script" >"$work/here/named" &
launch sched named
check 'a pipe by its name' 0
: <>"$work/here/named"
wait "$!"

# the launcher by links, one of them relative, and a wrong word of the caller's
ln -s copy/itmrun "$work/near"
ln -s "$work/near" "$work/here/far"
want_line 'itmrun: reading failed'
(cd "$work/here" && PATH=$path ITMRUN_PROVED= exec sh ./far sched absent) <"$work/input" >"$work/output" 2>"$work/errors"
status=$?
check 'a launcher by links' 5
want_line 'itmrun: ITMRUN_PROVED is 1, or not set'
only=2
launch sched script
check 'ITMRUN_PROVED that is neither' 127
only=

# sources that cannot be run, and no rt
rm -f "$built"
: >"$work/want_output"
printf '#!/bin/sh\necho "error: no such name" >&2\nexit 2\n' >"$copy/bin/rt"
{ echo "$unproved" && echo 'error: no such name' && echo 'itmrun: the sources could not be run; rt says above why'; } \
    >"$work/want_errors"
launch sched script
check 'sources that do not compile' 127
mkdir "$work/few"
for tool in sh dirname readlink find head; do ln -s "$(command -v $tool)" "$work/few"; done
path=$work/few
want_line 'itmrun: the program is not built, and there is no rt on the path'
launch sched script
check 'no rt' 127
at_once 'no words, and no rt' 1
path=$copy/bin:$PATH

# a launcher that is ended ends what it has started
printf '#!/bin/sh\necho $$ >"%s"\nexec sleep 100\n' "$work/started" >"$copy/bin/rt"
(launcher sched script) >"$work/output" 2>"$work/errors" &
launcher=$!
for _ in 1 2 3 4 5 6 7 8 9 10; do [ -s "$work/started" ] || sleep 1; done
kill "$launcher"
wait "$launcher"
status=$?
kill -0 "$(cat "$work/started")" 2>/dev/null && status='143, and its rt goes on'
echo "$unproved" >"$work/want_errors"
check 'a launcher that is ended' 143

# the true rt
cp "$root/examples/lost_update.history" "$work/want_output"
(cd "$root/examples" && exec sh ../try.sh sched lost_update.itm) >"$work/output" 2>"$work/errors"
status=$?
check 'the unproved sources' 0

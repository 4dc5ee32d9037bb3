# The part of tests/command.sh on scripts with their histories: those in examples/, and the rows in tests/rows/, each of
# which shows one thing. It is read by that script, and uses its functions and variables.
#
# A script NAME.itm gives the history NAME.history and the errors NAME.errors, nothing where there is no such file. So
# does its printed text, which is printed as itself; and its history is legal. A script that is refused is not printed.

for script in "$root"/examples/*.itm "$root"/tests/rows/*.itm; do
    name=$(basename "$script")
    cat "${script%.itm}.history" >"$work/want_output" 2>/dev/null
    cat "${script%.itm}.errors" >"$work/want_errors" 2>/dev/null
    case $(cat "$work/want_errors") in
    '') wanted=0 ;;
    'itmrun: line '*) wanted=2 ;;
    *) wanted=4 ;;
    esac
    run sched "$script"
    check "$name" "$wanted"
    if [ "$wanted" = 2 ]; then
        run asm "$script"
        check "$name, to be printed" 2
        continue
    fi
    run asm "$script"
    cp "$work/output" "$work/input"
    run sched -
    check "$name printed" "$wanted"
    cp "$work/input" "$work/want_output"
    : >"$work/want_errors"
    run asm -
    check "$name printed again" 0
    echo legal >"$work/want_output"
    run check "${script%.itm}.history"
    check "the history of $name" 0
done

for file in "$root"/tests/rows/*.history "$root"/tests/rows/*.errors; do
    if [ ! -f "${file%.*}.itm" ]; then
        failed=$((failed + 1))
        echo "failed: $(basename "$file"): there is no such script"
    fi
done

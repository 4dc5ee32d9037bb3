# Our benchmark and the programs that it is compared with: read by other files here, which have set `root` and `work`.
#
# peers FOLDER: sets `programs` to those that can be run. Ours are `one`, `two` and `ten`, by how many places of the program its
# transactions stand at. FOLDER has the sources of the others, `itm_bench.c`, over GCC's libitm, and `norec/norec.rs`, an
# algorithm of the same kind in plain Rust, whose write set is searched row by row (list) or by a table (index). Each is built
# where its source and its compiler are there, and left out where they are not; without FOLDER there are our programs alone.
# Every program runs as PROGRAM WORKLOAD THREADS SIZE MILLISECONDS: `counter` adds 1 to one word, `transfer` moves 1 between
# two of SIZE words, `readonly` reads and `writes` writes SIZE words.
#
# BENCH='PROGRAM..' takes other built programs in the place of this tree's. libitm goes by its method ml_wt, or by the one
# that ITM_DEFAULT_METHOD names.

ITM_DEFAULT_METHOD=${ITM_DEFAULT_METHOD:-ml_wt}
export ITM_DEFAULT_METHOD

stop() {
    echo "bench: $1" >&2
    exit 1
}

# crate_of NAME: the crate of one of our programs
crate_of() {
    case $1 in
    one) echo bench_one_site ;;
    two) echo bench_two_sites ;;
    ten) echo runtime_bench ;;
    esac
}

# run PROGRAM WORDS..: one run of it, under the command in `under`, if there is one
run() {
    name=$1
    shift
    case $name in
    one | two | ten)
        crate=$(crate_of "$name")
        $under "$root/crates/$crate/out/$crate" "$@"
        ;;
    libitm) $under "$work/itm_bench" "$@" ;;
    list | index) $under "$work/norec_bench" "$name" "$@" ;;
    *) $under "$name" "$@" ;;
    esac
}

# is_ours PROGRAM
is_ours() {
    case $1 in
    libitm | list | index) return 1 ;;
    esac
}

peers() {
    under=
    programs=${BENCH:-}
    if [ -z "$programs" ]; then
        programs='one two ten'
        for program in $programs; do
            # proves and builds it, if it has to be, before anything is measured
            (cd "$root/crates/$(crate_of "$program")" && rt run) >"$work/said" 2>&1 || {
                cat "$work/said" >&2
                stop "the program of $program could not be built"
            }
        done
    fi
    [ -n "$1" ] || return 0
    [ -d "$1" ] || stop "there is no folder $1"
    if gcc -O2 -fgnu-tm -pthread "$1/itm_bench.c" -o "$work/itm_bench" 2>"$work/said"; then
        programs="$programs libitm"
    else
        echo 'bench: left out: gcc with libitm' >&2
    fi
    if rustc -C opt-level=3 "$1/norec/norec.rs" -o "$work/norec_bench" 2>"$work/said"; then
        programs="$programs list index"
    else
        echo 'bench: left out: rustc' >&2
    fi
}

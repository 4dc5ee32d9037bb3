#!/bin/sh
# Each allocation of some tests refused in turn: sh tests/refused.sh. Needs rt, which builds the tests with no proof, in some
# minutes. With SCRIPTS=few, as in the gate, one test of each kind.
#
# A function of crates/memory_tests that holds wherever memory is refused is called by many tests, in a copy: in the first
# one allocation MOST is refused to it, in the next one the one before that, and so on, since each of them allocates one
# time more before the call. In the first one nothing may be refused. The last line is "N passed, M failed"; the exit
# status is 0 where none failed.
set -e

# no function here allocates so often
MOST=96

top=$(CDPATH= cd -- "$(dirname -- "$0")/.." && pwd)
work=$(mktemp -d)
trap 'rm -rf "$work"' EXIT
tar -C "$top" --exclude=./.git --exclude=./crates/*/out -cf - . | tar -C "$work" -xf -
cd "$work/crates/memory_tests"

scripts=${SCRIPTS:-all}
case $scripts in
few) engines=read_and_write plains=calls ;;
all) engines='log read_and_write copies_and_fills beyond_room actions' plains='calls begins' ;;
*) echo "SCRIPTS is all or few, and not $scripts" >&2 && exit 1 ;;
esac

# make NAME CALL: so many tests of this call, which answers whether nothing was refused
make() {
    i=0
    while [ $i -lt $MOST ]; do
        echo '#[test]'
        echo "fn $1_$i(rt: HostRuntime) -> Result<(), Fail> {"
        echo "    take(rt.alloc(), $i)?;"
        echo "    let found = $2;"
        echo "    assert!(rt; found || $i > 0, \"more than $MOST\");"
        echo '    Ok(())'
        echo '}'
        i=$((i + 1))
    done
}

{
    echo 'use super::{engine, frames, plain};'
    echo 'use std::alloc::{AllocError, Global};'
    echo 'use std::test::Fail;'
    echo 'fn take(alloc: Global, times: usize) -> Result<(), AllocError> {'
    echo '    for _ in 0..times { let mut bytes: Vec<u8> = Vec::new(alloc); bytes.reserve(8)?; }'
    echo '    Ok(())'
    echo '}'
    for name in $engines; do
        make "engine_$name" "engine::expect_$name(&rt, rt.alloc())?"
    done
    make frames_blocks 'frames::expect_blocks(&rt, rt.alloc())?'
    for name in $plains; do
        make "plain_$name" "plain::expect_$name(&rt, rt.alloc())?"
    done
} >src/tests/refused.rt
sed -i '0,/^mod /s//mod refused;\nmod /' src/tests.rt

rt try --test --fail-alloc $MOST >out.txt 2>&1 || true
grep -A 4 '::refused::.* \.\.\. FAILED' out.txt || true
passed=$(grep -c '::refused::.* \.\.\. ok$' out.txt || true)
failed=$(grep -c '::refused::.* \.\.\. FAILED$' out.txt || true)
[ $((passed + failed)) -eq "$(grep -c '^#\[test\]' src/tests/refused.rt)" ] || { tail -20 out.txt; echo "not all were run" >&2; exit 1; }
echo "$passed passed, $failed failed"
[ "$failed" = 0 ]

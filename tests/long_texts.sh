#!/bin/sh
# Long scripts and histories of many shapes, each at two sizes, the second twice the first: sh tests/long_texts.sh [PART..].
# Outside the gate; needs python3.
#
# - `asm`: scripts of 8 and 16 million bytes, nearly the largest ones, through `itmrun asm`.
# - `sched` and `threads`: scripts of 32,000 and 64,000 instructions, nearly the longest ones, through these commands.
# - `check`: histories of 8 and 16 million bytes through `itmrun check`; where each block ran again from the longest arena, five
#   times as many.
# - `works`: histories whose lines touch many bytes each, of 256,000 and 512,000 bytes, through `itmrun check`.
#
# All parts, or those that are named. Each text has to be answered with its status within 20 seconds of processor time and
# 2 GiB; the longer one may take 2.5 times the time of the other, and each byte that it has more so many bytes of memory as
# tests/long_texts/measure.py says of its part. Some shapes cost more: these have numbers of their own. A line for each shape
# tells the bytes of the longer text, its status, its seconds, how many times those of the other one they are, and its memory,
# in kilobytes and in bytes for each byte that it has more. It takes some two minutes on one processor.
#
# ITMRUN=PROGRAM takes another built program than this tree's. The last line is "N passed, M failed"; the exit status is 0
# where none failed.

root=$(CDPATH= cd -- "$(dirname -- "$0")/.." && pwd) || exit 1
program=${ITMRUN:-}
if [ -z "$program" ]; then
    # builds the program, if it has to be
    ITMRUN_PROVED=1 "$root/itmrun" sched "$root/examples/counter.itm" >/dev/null || exit 1
    program=$root/crates/itmrun/out/itmrun
fi
exec python3 -B "$root/tests/long_texts/measure.py" "$program" "$@"

#!/bin/sh
# usage: sh compiled/build.sh
#
# Builds compiled/out/libitm.so.1, on which programs of `gcc -fgnu-tm` run. Its engine is the static library of
# crates/itm_c, which is proved and built first where it is not.
#
# Environment:
#   ENGINE   an archive or object with the calls of engine.h, instead: nothing is proved then
#   OUT      the folder of the library, instead of compiled/out
#   CC       the compiler, gcc where it is not set
#   RT_JOBS  how many processors a proof takes, where it is set
set -u
here=$(CDPATH= cd -- "$(dirname -- "$0")" && pwd) || exit 1
crate=$here/../crates/itm_c
out=${OUT:-$here/out}
engine=${ENGINE:-}

stop() {
    echo "compiled/build.sh: $*" >&2
    exit 1
}

case $(uname -sm) in
'Linux x86_64') ;;
*) stop "this is $(uname -sm): the library is for Linux on x86-64 alone" ;;
esac
command -v "${CC:-gcc}" >/dev/null || stop "there is no ${CC:-gcc}"

if [ -z "$engine" ]; then
    command -v rt >/dev/null ||
        stop "the Rattle kit is not here (no rt on the path), so the engine can't be proved." \
            "ENGINE=libitm_c.a takes one that was built on another machine"
    [ -d "$crate" ] || stop "there is no crates/itm_c"
    # a check takes a processor and up to 4 GB
    jobs=${RT_JOBS:-$(awk -v most="$(nproc)" '/^MemAvailable:/ { n = int($2 / 4000000) } END { print n < 1 ? 1 : n < most ? n : most }' /proc/meminfo)}
    sh "$here/../tools/archive.sh" itm_c >/dev/null 2>&1 || (cd "$crate" && rt lib --jobs "$jobs") ||
        stop "the engine could not be proved and built"
    engine=$crate/out/libitm_c.a
fi
[ -f "$engine" ] || stop "there is no $engine"

mkdir -p "$out" || exit 1
"${CC:-gcc}" -std=c11 -O2 -g -fPIC -fvisibility=hidden -Wall -Wextra -shared -Wl,-soname,libitm.so.1 \
    -Wl,--version-script="$here/libitm.map" -Wl,-z,now,-z,defs,-z,nodelete,--exclude-libs,ALL \
    -o "$out/libitm.so.1.new" "$here"/begin.S "$here"/*.c "$engine" -pthread || exit 1
mv "$out/libitm.so.1.new" "$out/libitm.so.1"
ln -sf libitm.so.1 "$out/libitm.so"

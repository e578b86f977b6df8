#!/bin/sh
# Times the proved library against plain C (gcc -O2) over the same inputs in one run.
#   bench/run.sh [LIMIT [LIST_LIMIT]]
# The tables go to standard output. The exit status is 1 if the two ever differ, or if a group's ratio
# is above the limit given for it: LIST_LIMIT for the group "queue by a list", whose lists both walk one
# entry at a time, and LIMIT for every other. A limit that is not given, or 0, judges nothing. Groups
# above their limit are named on standard error.
# KUJAWIAN_ARCHIVES names a folder that already holds libkujawian.a; else it is built. Some 20
# seconds beside that.
set -eu
cd "$(dirname "$0")/.."
home=$PWD name=bench/run.sh
. lib/build.sh
find_archive kujawian
out=target/bench
mkdir -p "$out"
compile() {
    gcc -std=c11 -O2 -falign-functions=64 -Wall -Wextra -Iinclude -Ibench -c "$@"
}
compile -o "$out/bench.o" bench/bench.c
compile -o "$out/plain.o" bench/plain.c
compile -DTABLE=proved -o "$out/proved_calls.o" bench/calls.c
compile -DTABLE=plain -include plain_names.h -o "$out/plain_calls.o" bench/calls.c
# Functions start at multiples of 64 bytes on both sides: else where the linker puts a short loop weighs more than what is in it.
objcopy -w --set-section-alignment '.text.*=64' "$archives/libkujawian.a" "$out/libkujawian.a"
gcc -o "$out/bench" "$out/bench.o" "$out/plain.o" "$out/proved_calls.o" "$out/plain_calls.o" \
    "$out/libkujawian.a"
exec "$out/bench" "$@"

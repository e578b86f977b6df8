#!/bin/sh
# Holds bench/plain.c, the plain C version that the benchmark times, to the independent program.
#   tests/plain.sh [cases] [seed]
# Under the library's names it stands in for the proved archive, and compare_face puts every call.
set -eu
cd "$(dirname "$0")/.."
stand_in=target/bench/stand_in
mkdir -p "$stand_in"
rm -f "$stand_in/libkujawian.a"
gcc -std=c11 -O2 -falign-functions=64 -Wall -Wextra -pedantic -Iinclude -DSTAND_IN -c -o "$stand_in/plain.o" bench/plain.c
ar rc "$stand_in/libkujawian.a" "$stand_in/plain.o"
KUJAWIAN_ARCHIVES=$stand_in exec tests/compare_face.sh "$@"

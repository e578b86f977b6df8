#!/bin/sh
# Times the proved F_floating multiply against plain C (gcc -O2). A few seconds.
# KUJAWIAN_ARCHIVES names a folder that already holds libfloating_c.a; else it is built.
set -eu
cd "$(dirname "$0")/.."
home=$PWD name=bench/floating.sh
. lib/build.sh
find_archive floating_c
mkdir -p target/bench
gcc -std=c11 -O2 -Wall -Wextra -o target/bench/floating bench/floating.c "$archives/libfloating_c.a"
exec target/bench/floating

#!/bin/sh
# Builds the C example against the proved library: target/examples/kettle.
# KUJAWIAN_ARCHIVES names a folder that already holds libkujawian.a; else it is proved and built.
set -eu
cd "$(dirname "$0")/.."
home=$PWD name=examples/build.sh
. lib/build.sh
find_archive kujawian
mkdir -p target/examples
gcc -std=c11 -O2 -Wall -Wextra -pedantic -Iinclude -o target/examples/kettle examples/kettle.c \
    "$archives/libkujawian.a"

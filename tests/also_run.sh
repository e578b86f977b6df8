#!/bin/sh
# Runs document 01's "Also run" through the C interface and compares with what is stored.
# KUJAWIAN_ARCHIVES names a folder that already holds libkujawian.a; else it is built.
set -eu
cd "$(dirname "$0")/.."
home=$PWD name=tests/also_run.sh
. lib/build.sh
find_archive kujawian
gcc -O2 -std=c11 -Wall -Wextra -Iinclude -o target/also_run tests/also_run.c "$archives/libkujawian.a"
target/also_run >target/also_run.out
cmp target/also_run.out tests/also_run.expected
echo "also run: SAME"

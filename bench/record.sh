#!/bin/sh
# Runs the benchmark and puts its tables into docs/PERFORMANCE.md, between the two marker lines there.
# Nothing is written if the proved library and plain C differ.
set -eu
cd "$(dirname "$0")/.."
mkdir -p target/bench
bench/run.sh > target/bench/tables.md
awk '
    /^<!-- tables end -->$/ { inside = 0 }
    !inside { print }
    /^<!-- tables -->$/ {
        inside = 1
        while ((getline line < "target/bench/tables.md") > 0)
            print line
    }' docs/PERFORMANCE.md > target/bench/PERFORMANCE.md
cp target/bench/PERFORMANCE.md docs/PERFORMANCE.md

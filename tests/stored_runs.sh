#!/bin/sh
# Runs the lister and the runner on saved files and holds what they print to the independent program.
#   tests/stored_runs.sh [PROGRAM...]      both if none is named; each has to stand in target/bin
set -eu
cd "$(dirname "$0")/.."
(cd independent && cargo build --offline --release --quiet)
runs=target/stored_runs
rm -rf "$runs"
independent/target/release/make_saved "$runs"
[ $# -gt 0 ] || set -- lister runner
status=0
for program in "$@"; do
    [ -x "target/bin/$program" ] || { echo "target/bin/$program is not built: make builds it"; exit 1; }
    count=0
    for run in "$runs/$program"/*/; do
        "target/bin/$program" < "${run}stdin" > "${run}given" || { echo "$run: exit status $?"; status=1; }
        cmp -s "${run}stdout" "${run}given" || { echo "DIFFERS: $run"; status=1; }
        count=$((count + 1))
    done
    echo "$program: $count runs"
done
[ $status -eq 0 ] && echo SAME
exit $status

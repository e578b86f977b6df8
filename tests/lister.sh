#!/bin/sh
# Runs the lister over each stored input and compares what it writes. Exits with 1 on a difference.
cd "$(dirname "$0")/.." || exit 1
lister=target/bin/lister
[ -x "$lister" ] || { echo "lister.sh: $lister is missing: make builds it"; exit 1; }
runs=0
failed=0
for input in tests/lister/*.in.gz; do
    runs=$((runs + 1))
    gzip -dc "$input" | "$lister" | cmp -s - "${input%.in.gz}.out" && continue
    echo "lister.sh: ${input%.in.gz}.out differs"
    failed=$((failed + 1))
done
[ "$runs" -gt 0 ] || { echo "lister.sh: no inputs"; exit 1; }
echo "lister.sh: $runs runs, $failed differ"
[ "$failed" -eq 0 ]

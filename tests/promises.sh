#!/bin/sh
# docs/PROMISES.md names each must-fail edit, as CRATE/`NAME` in the last column of its table of calls, and no other. Says what stands on one side
# alone.
set -eu
cd "$(dirname "$0")/.."

named=$(mktemp)
kept=$(mktemp)
trap 'rm -f "$named" "$kept"' EXIT

# What stands between backquotes in the last column, a line each. Every such word there is an edit.
awk -F'|' '
    /^## / { calls = ($0 == "## The calls") }
    calls && /^\|/ {
        n = split($4, part, "`")
        for (i = 2; i <= n; i += 2) {
            crate = match(part[i - 1], /[a-z_]+\/$/) ? substr(part[i - 1], RSTART) : ""
            print crate part[i]
        }
    }' docs/PROMISES.md | sort -u >"$named"
for edit in crates/*/must-fail/*.edit; do
    crate=${edit#crates/}
    echo "${crate%%/*}/$(basename "$edit" .edit)"
done | sort -u >"$kept"

if ! cmp -s "$named" "$kept"; then
    comm -23 "$named" "$kept" | sed 's,.*,promises: docs/PROMISES.md names & and there is no such edit,'
    comm -13 "$named" "$kept" | sed 's,.*,promises: & is an edit that docs/PROMISES.md does not name,'
    exit 1
fi

# The theorems: what stands between backquotes in the last column of the first table is names and then their file, where each is proved.
bad=0
awk -F'|' '/^## / { demands = ($0 == "## The three demands") } demands && /^\|/ { print $4 }' docs/PROMISES.md | grep '`' >"$named"
while IFS= read -r cell; do
    file=$(echo "$cell" | sed 's/.*`\([^`]*\)`[^`]*$/\1/')
    for name in $(echo "$cell" | tr ',' '\n' | sed -n 's/.*`\([^`/]*\)`.*/\1/p'); do
        if ! grep -q "^pub $name :" "$file"; then
            echo "promises: docs/PROMISES.md names $name in $file, which does not prove it"
            bad=1
        fi
    done
done <"$named"
[ "$bad" -eq 0 ] || exit 1
theorems=$(wc -l <"$named")

echo "promises: docs/PROMISES.md names each of the $(wc -l <"$kept") must-fail edits; the theorems of its $theorems demands and laws stand where it says"

#!/bin/sh
# What the archive needs and gives, for whoever links it: it gives exactly the header's calls, needs memset alone, keeps no data, takes NULL
# for an empty slice, arrays aligned to their items, and at most 4,096 bytes of stack a call. The stack is counted in the machine code, along every
# chain of calls, and the painted stack of real calls (tests/linking.c) is held to that. No call takes more than docs/MANUAL.md says of it.
#   tests/linking.sh [--facts]     --facts: prints each call's stack
# KUJAWIAN_ARCHIVES names a folder that already holds libkujawian.a; else it is built.
set -eu
cd "$(dirname "$0")/.."
home=$PWD name=tests/linking.sh
. lib/build.sh
find_archive kujawian
most=4096
archive=$archives/libkujawian.a
out=target/linking
mkdir -p "$out"
bad=0
say() {
    echo "linking: $*"
    bad=1
}

needs=$(nm -u "$archive" | sed -n 's/^ *U //p' | sort -u)
[ "$needs" = memset ] || say "the archive needs more than memset, or less:" $needs
lib/calls.sh >"$out/calls"
nm -g --defined-only "$archive" | sed -n 's/.* T //p' | LC_ALL=C sort >"$out/gives"
cmp -s "$out/calls" "$out/gives" || say "the archive does not give exactly the calls of the header"

objdump -h "$archive" | awk '$2 ~ /^\.t?(data|bss)/ && $3 !~ /^0+$/ { bad = 1 } END { exit bad }' || say "the archive has data that is written"
# An aligned vector move, or a vector operation, on memory that is neither the stack's nor a constant would need 16 bytes.
aligned=$(objdump -d --no-show-raw-insn "$archive" | awk '/%xmm/ && /\(%/ && !/\(%r(sp|ip)/ && $2 !~ /^mov(dqu|up[sd]|s[sd]|[qd]|[lh]p[sd])$/ { print $2 }' | sort -u)
[ -z "$aligned" ] || say "some array would have to lie at multiples of 16 bytes, for" $aligned

if ! objdump -dr --no-show-raw-insn "$archive" | awk -f tests/stack.awk | LC_ALL=C sort >"$out/counted"; then
    say "the stack could not be counted"
fi
cut -d ' ' -f 1 "$out/counted" | cmp -s - "$out/calls" || say "the stack was not counted for every call"

gcc -O2 -std=gnu11 -Wall -Wextra -Werror -Iinclude -Wl,-z,now -o "$out/linking" tests/linking.c "$archive"
status=0
"$out/linking" >"$out/seen" || status=$?
[ "$status" -eq 0 ] || { grep '^linking:' "$out/seen" || true; say "tests/linking.c ended with $status"; }

# What the manual says of each call, in the words "at most N bytes for `kuj_a`, N for `kuj_b` and N for every other call".
awk '/^\| stack \| at most / {
    gsub(/,/, "")
    for (k = 1; k < NF; k++) if ($k == "for") {
        bytes = $(k - 1) == "bytes" ? $(k - 2) : $(k - 1)
        if ($(k + 1) == "every") print "every", bytes
        else if (match($(k + 1), /kuj_[a-z_]*/)) print substr($(k + 1), RSTART, RLENGTH), bytes
    }
}' docs/MANUAL.md >"$out/said"
grep -q '^every [0-9]' "$out/said" || say "the manual's stack could not be read"

# A caller lays the parameters after the sixth on the stack: at most six, 48 bytes; fewer take no more, aligned to 16.
grep -v '^linking:' "$out/seen" | LC_ALL=C sort | join "$out/counted" - >"$out/both"
[ "$(wc -l <"$out/both")" -eq "$(wc -l <"$out/calls")" ] || say "not every call was put on a painted stack"
while read -r call counted seen; do
    [ "$seen" -le $((counted + 48)) ] || say "$call was seen to take $seen bytes of stack, and $counted were counted"
    said=$(awk -v call="$call" '$1 == "every" { every = $2 } $1 == call { own = $2 } END { print own == "" ? every + 0 : own }' "$out/said")
    [ $((counted + 48)) -le "$said" ] || say "$call takes $((counted + 48)) bytes of stack, and docs/MANUAL.md says $said"
    [ $((counted + 48)) -le $most ] || say "$call takes $((counted + 48)) bytes of stack, more than $most"
    [ "${1-}" != --facts ] || echo "$call: at most $((counted + 48)) bytes, seen $seen"
done <"$out/both"
[ $bad -eq 0 ] || exit 1
echo "linking: needs memset alone, $(wc -l <"$out/calls") calls, empty slices, alignment and stack as said (at most $(sort -k 2 -n "$out/counted" | tail -n 1 | { read -r call counted; echo $((counted + 48)); }) bytes)"

#!/bin/sh
# What docs/MANUAL.md shows comes out as it says: its C program, built with the archive, and its worked job, made and run by the lines that
# stand there. KUJAWIAN_ARCHIVES names a folder that already holds libkujawian.a; else it is built.
set -eu
cd "$(dirname "$0")/.."
home=$PWD name=tests/manual.sh
. lib/build.sh
find_archive kujawian
case $archives in /*) ;; *) archives=$home/$archives ;; esac
out=$home/target/manual
rm -rf "$out"
mkdir -p "$out"

# block HEADING N: the n-th stretch of lines set in by four spaces after that heading
block() {
    awk -v heading="$1" -v wanted="$2" '
        /^#/ { here = ($0 == heading) }
        /^    / && here { if (!inside) n++; inside = 1; if (n == wanted) print substr($0, 5); next }
        { inside = 0 }' docs/MANUAL.md
}
same() {
    cmp -s "$out/expected" "$out/given" || { complain "$1 prints something else than docs/MANUAL.md says:"; diff "$out/expected" "$out/given"; exit 1; }
    [ -s "$out/expected" ] || fail "docs/MANUAL.md has no output of $1 where it is looked for"
}

awk '/^```c$/ { inside = 1; next } /^```$/ { inside = 0 } inside' docs/MANUAL.md >"$out/program.c"
awk '/^```$/ { past = 1 } past && /^    / { print substr($0, 5); any = 1; next } any { exit }' docs/MANUAL.md >"$out/expected"
"${CC:-gcc}" -std=c99 -Wall -Wextra -Werror -Iinclude -o "$out/program" "$out/program.c" "$archives/libkujawian.a"
"$out/program" >"$out/given"
same "the C program"

block '### A worked job' 1 >"$out/start.txt"
block '### A worked job' 2 >"$out/lines"
block '### A worked job' 4 >"$out/expected"
# What the lines name is made to lie beside them, in a folder outside the clone: a link within it would stop the next rt ci.
work=$(mktemp -d)
ln -s "$home/examples" "$home/run" "$work"
cp "$out/start.txt" "$out/lines" "$work"
(cd "$work" && sh -e ./lines) >"$out/given"
same "the worked job"
echo "manual: its C program and its job print what it says"

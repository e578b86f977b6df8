#!/bin/sh
# How definitions and proofs are written: each file begins with what it is about, lines stay under 160 characters (but for imports, each of which
# rt fmt keeps on one line), and a fact on the way through a function is named by its step and not by how many steps back it lies.
set -eu
cd "$(dirname "$0")/.."
LC_ALL=C.UTF-8
export LC_ALL
files=$(find crates -path 'crates/*/out' -prune -o -name '*.antt' -print | sort)
bad=0
for file in $files; do
    case $(head -n 1 "$file") in
    '-- '*) ;;
    *)
        echo "proofs: $file does not begin with what it is about"
        bad=1
        ;;
    esac
done
# shellcheck disable=SC2086
if grep -nE '^.{160,}' $files | grep -vE '^[^:]*:[0-9]*:(unfoldable |pub )*use ' | cut -c 1-120; then :; fi >"${TMPDIR:-/tmp}/proofs.$$"
if [ -s "${TMPDIR:-/tmp}/proofs.$$" ]; then
    echo "proofs: lines of 160 characters and more:"
    cat "${TMPDIR:-/tmp}/proofs.$$"
    bad=1
fi
rm -f "${TMPDIR:-/tmp}/proofs.$$"
# shellcheck disable=SC2086
if grep -nE '\.before +\.before' $files; then
    echo "proofs: these count steps back"
    bad=1
fi
if [ $bad -ne 0 ]; then exit 1; fi
echo "proofs: each of $(echo "$files" | wc -l) files says what it is about; no line is too long, and no fact is counted"

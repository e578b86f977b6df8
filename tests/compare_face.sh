#!/bin/sh
# Compares every call of the proved library's C interface with the independent program.
#   tests/compare_face.sh [cases] [seed]
# KUJAWIAN_ARCHIVES names a folder that already holds libkujawian.a; else it is built.
set -eu
cd "$(dirname "$0")/.."
name=tests/compare_face.sh
. tests/link.sh
whole_numbers "tests/compare_face.sh [cases] [seed]" "$@"
link_with kujawian independent/compare/face.rs compare_face
log=target/compare_face.$$
work=$log # removed at the end
independent/target/release/compare_face "${1:-20000}" "${2:-1}" >"$log" || status=$?
cat "$log"
[ "${status:-0}" -ne 0 ] || exit 0
# A difference is one thing, and too few cases to meet all that has to be met another.
if grep -q '^0 differ$' "$log"; then
    complain "nothing differs, but ${1:-20000} cases did not meet all that has to be compared (lines with 'never' or a count of 0); take more, as 20000"
else
    complain "the library and the independent program differ (lines with DIFFERS)"
fi
exit 1

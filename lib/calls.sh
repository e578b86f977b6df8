#!/bin/sh
# Prints the names of the calls that include/kujawian.h declares, sorted, one a line.
set -eu
cd "$(dirname "$0")/.."
"${CC:-gcc}" -E -P include/kujawian.h | tr '\n' ' ' | tr ';' '\n' | sed -n 's/^.*[ *]\(kuj_[a-z0-9_]*\) *([^()]*) *$/\1/p' | LC_ALL=C sort

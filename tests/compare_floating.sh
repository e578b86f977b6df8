#!/bin/sh
# Compares the proved F_floating arithmetic with the independent program and the outside vectors.
#   tests/compare_floating.sh [pairs] [seed]
# KUJAWIAN_ARCHIVES names a folder that already holds libfloating_c.a; else it is built.
set -eu
cd "$(dirname "$0")/.."
name=tests/compare_floating.sh
. tests/link.sh
whole_numbers "tests/compare_floating.sh [pairs] [seed]" "$@"
link_with floating_c independent/compare/floating.rs compare_floating
exec independent/target/release/compare_floating "${1:-1000000}" "${2:-1}"

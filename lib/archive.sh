#!/bin/sh
# Proves and builds an archive for C, target/staticlib/libNAME.a, if it is not up to date.
#   lib/archive.sh NAME      kujawian or floating_c
set -eu
home=$(CDPATH='' cd -P "$(dirname "$0")/.." && pwd)
name=archive
. "$home/lib/build.sh"
case ${1-} in
kujawian | floating_c) [ $# -eq 1 ] && build archive "$1" ;;
*) fail "usage: lib/archive.sh kujawian, or floating_c" ;;
esac

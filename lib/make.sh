#!/bin/sh
# Proves and builds what is installed, in target/dist: the archive with its functions aligned, and the shared library. The programs stand
# in target/bin. What is up to date is left as it is.
set -eu
home=$(CDPATH='' cd -P "$(dirname "$0")/.." && pwd)
name=make
. "$home/lib/build.sh"
cd "$home"
build program lister
build program runner
build archive kujawian
version=$(cat VERSION)
dist=target/dist
archive=target/staticlib/libkujawian.a
header=include/kujawian.h

whole=$dist/libkujawian.so.$version
if [ -f "$whole" ]; then
    newer=$(find "$archive" VERSION "$header" lib/make.sh -newer "$whole")
    [ -n "$newer" ] || exit 0
fi
rm -rf "$dist.new"
mkdir -p "$dist.new"

# Functions start at multiples of 64 bytes, so that where the linker puts them costs no speed (docs/PERFORMANCE.md).
objcopy -w --set-section-alignment '.text.*=64' "$archive" "$dist.new/libkujawian.a"

# The shared library exports exactly the calls that the header declares. Its name has MAJOR.MINOR: a program finds no other.
calls=$(lib/calls.sh)
{
    echo "{ global:"
    for call in $calls; do echo "$call;"; done
    echo "local: *; };"
} >"$dist.new/calls"
"${CC:-gcc}" -shared -o "$dist.new/${whole##*/}" -Wl,-soname,"libkujawian.so.${version%.*}" -Wl,--version-script,"$dist.new/calls" \
    -Wl,--no-undefined -Wl,-z,noexecstack -Wl,--whole-archive "$dist.new/libkujawian.a" -Wl,--no-whole-archive
given=$(nm -D --defined-only "$dist.new/${whole##*/}" | sed 's/.* //' | sort)
[ "$given" = "$calls" ] || fail "the shared library does not export exactly the calls of the header"
rm -rf "$dist"
mv "$dist.new" "$dist"

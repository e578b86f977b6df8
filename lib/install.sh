#!/bin/sh
# Installs what lib/make.sh built under $PREFIX, below $DESTDIR if that is given; --remove takes it away again.
#   bin/kujawian-run, bin/kujawian-list     the programs
#   lib/libkujawian.a, lib/libkujawian.so   the library, for static and for shared linking
#   lib/pkgconfig/kujawian.pc, include/kujawian.h
#   libexec/kujawian                        what the programs need
#   share/doc/kujawian                      the manual and the formats
set -eu
home=$(CDPATH='' cd -P "$(dirname "$0")/.." && pwd)
name=install
. "$home/lib/say.sh"
umask 022
version=$(cat "$home/VERSION")
short=${version%.*}
prefix=${PREFIX:-/usr/local}
case $prefix in /*) ;; *) prefix=$PWD/$prefix ;; esac
root=${DESTDIR:-}$prefix

if [ "${1-}" = --remove ]; then
    rm -f "$root/bin/kujawian-run" "$root/bin/kujawian-list" "$root/include/kujawian.h" "$root/lib/pkgconfig/kujawian.pc" \
        "$root/lib/libkujawian.a" "$root/lib/libkujawian.so" "$root/lib/libkujawian.so.$short" "$root/lib/libkujawian.so.$version"
    rm -rf "$root/libexec/kujawian" "$root/share/doc/kujawian"
    complain "removed from $root"
    exit 0
fi

# put MODE FILE PLACE: a copy that takes its name last, so that what runs is never cut.
put() {
    mkdir -p "$(dirname "$root/$3")"
    cp "$2" "$root/$3.new"
    chmod "$1" "$root/$3.new"
    mv -f "$root/$3.new" "$root/$3"
}
cd "$home"
put 644 target/dist/libkujawian.a lib/libkujawian.a
put 755 "target/dist/libkujawian.so.$version" "lib/libkujawian.so.$version"
[ "$short" = "$version" ] || ln -sf "libkujawian.so.$version" "$root/lib/libkujawian.so.$short"
ln -sf "libkujawian.so.$short" "$root/lib/libkujawian.so"
put 644 include/kujawian.h include/kujawian.h
for part in VERSION lib/front.sh lib/say.sh; do put 644 "$part" "libexec/kujawian/$part"; done
for part in runner lister; do put 755 "target/bin/$part" "libexec/kujawian/$part"; done
for part in docs/FORMATS.md docs/MANUAL.md docs/CHANGELOG.md; do
    [ ! -f "$part" ] || put 644 "$part" "share/doc/kujawian/${part#docs/}"
done

made=$(mktemp -d)
work=$made
for part in run list; do
    sed -e 's|^\(home=.*\)dirname "$self")"|\1dirname "$self")/../libexec/kujawian"|' -e '/^# The .* is built first/d' \
        -e "s|(docs/FORMATS.md)|(share/doc/kujawian/FORMATS.md)|; s|\\./$part --help|kujawian-$part --help|; s|^# $part |# kujawian-$part |" "$part" >"$made/$part"
    grep -q 'libexec/kujawian' "$made/$part" || fail "$part does not say where its home is"
    put 755 "$made/$part" "bin/kujawian-$part"
done
cat >"$made/pc" <<END
prefix=$prefix
libdir=\${prefix}/lib
includedir=\${prefix}/include

Name: kujawian
Description: DEC's VAX vector instructions, proved
Version: $version
Libs: -L\${libdir} -lkujawian
Cflags: -I\${includedir}
END
put 644 "$made/pc" lib/pkgconfig/kujawian.pc
complain "version $version is under $root"

#!/bin/sh
# The front: what a user meets. Arguments and exit status of the two programs in a clone and as installed; builds: progress, two at once,
# without rt, by a user who may not write; installing; the same readings from C, C++, Rust and Python. Names what failed; exits with 1.
# target/bin has to hold both programs, up to date, and target/staticlib the archive. Half a minute. As root it becomes nobody for what
# another user may do; as anyone else it takes away the right to write instead.
set -u
cd "$(dirname "$0")/.." || exit 1
top=$PWD
LC_ALL=C
export LC_ALL
unset KUJAWIAN_ARCHIVES CDPATH MAKEFLAGS MFLAGS MAKEOVERRIDES PREFIX DESTDIR CC
tmp=$(mktemp -d) || exit 1
chmod 755 "$tmp"
trap 'chmod -R u+w "$tmp" 2>/dev/null; rm -rf "$tmp"' EXIT
trap 'exit 1' HUP INT TERM
tried=0
failed=0
wrong() {
    failed=$((failed + 1))
    echo "front: FAILED: $*"
}

# try STATUS WHAT COMMAND...: runs it, with its output in $tmp/out and $tmp/err; the exit status has to be STATUS.
try() {
    due=$1 what=$2 given=0
    shift 2
    tried=$((tried + 1))
    "$@" >"$tmp/out" 2>"$tmp/err" || given=$?
    [ "$given" -eq "$due" ] || wrong "$what: exit status $given, expected $due; it says: $(head -n 3 "$tmp/err" | cut -c 1-200)"
}
says() { grep -qe "$1" "$tmp/err" || wrong "$what: standard error has no '$1' but: $(head -n 3 "$tmp/err" | cut -c 1-200)"; }
quiet() { [ ! -s "$tmp/err" ] || wrong "$what: standard error is not empty: $(head -n 3 "$tmp/err" | cut -c 1-200)"; }
prints() { cmp -s "$1" "$tmp/out" || wrong "$what: standard output is not that of $1 but begins: $(head -n 1 "$tmp/out" | cut -c 1-80)"; }
silent() { [ ! -s "$tmp/out" ] || wrong "$what: standard output is not empty"; }
within() { (cd "$1" && shift && "$@"); }

for tool in gcc g++ rustc python3 pkg-config gzip objcopy make setpriv; do
    command -v "$tool" >/dev/null 2>&1 || { echo "front: $tool is not on the path, and this test needs it"; exit 1; }
done
for made in target/bin/lister target/bin/runner target/staticlib/libkujawian.a; do
    [ -f "$made" ] || { echo "front: $made is missing: make builds it"; exit 1; }
done

# ---- inputs
saved=$top/crates/lister/stdin
job=$top/crates/runner/stdin
in=$tmp/in
mkdir -p "$in/a folder"
head -c 16464 "$job" >"$in/state"
record() { # OPCODE CONTROL-LOW CONTROL-HIGH, in octal
    printf "\\$1\\000\\$2\\$3\\000\\000\\000\\000\\000\\000\\000\\000\\000\\000\\000\\000"
}
{ cat "$in/state"; record 200 045 040; record 377 000 000; } >"$in/reserved"
{ cat "$in/state"; record 200 045 040; record 064 000 000; } >"$in/memory"
{ cat "$in/state"; record 304 003 000; } >"$in/word"
{ cat "$in/state"; record 200 045 040; printf '\200'; } >"$in/cut-record"
{ cat "$in/state"; record 200 045 040 | tr '\000' '\001'; } >"$in/filler"
{ cat "$in/state"; for _ in 1 2 3 4 5 6 7 8 9 10 11 12 13 14 15 16 17; do record 200 045 040; done; } >"$in/seventeen"
{ head -c 16456 "$in/state"; printf '\000\000\000\000\000\000\000\000'; } >"$in/disabled"
head -c 11207 "$in/state" >"$in/cut"
cp "$saved" "$in/a folder/a state with spaces"
cp "$saved" "$in/-dash"
cp "$saved" "$in/-"
cp "$saved" "$in/plain.gz"
gzip -c "$saved" >"$in/packed"
gzip -c "$job" >"$in/packed-job.txt"
head -c 60 "$in/packed" >"$in/damaged"
{ head -c $(($(wc -c <"$in/packed") - 8)) "$in/packed"; printf 'ABCDEFGH'; } >"$in/damaged-sum"
{ cat "$in/packed"; echo more; } >"$in/damaged-more"
: >"$in/empty"
printf '\037' >"$in/one"
ln -s nowhere "$in/dangling"
chmod -R go+rX "$in"
cp "$saved" "$in/unreadable"
chmod 000 "$in/unreadable"

# ---- as another user
mkdir "$tmp/room"
chmod 777 "$tmp/room"
if [ "$(id -u)" = 0 ]; then
    as_other() { TMPDIR="$tmp/room" setpriv --reuid=65534 --regid=65534 --clear-groups "$@"; }
else
    as_other() { "$@"; }
fi

# ---- arguments and exit status, of a clone's scripts and of the installed ones
unreadable() { # LIST
    try 2 "a file that may not be read" as_other "$1" "$in/unreadable"
    says 'may not be read'
    silent
}
# front RUN LIST WHERE
front() {
    run=$1 list=$2 where=$3
    for program in "$run" "$list"; do
        try 2 "$where: no argument" "$program"
        says '^usage: '
        silent
        try 2 "$where: two arguments" "$program" "$saved" "$saved"
        says '^usage: '
        silent
        for option in -h --help; do
            try 0 "$where: $option" "$program" $option
            grep -q '^Exit status:' "$tmp/out" || wrong "$what: does not say the exit status"
            quiet
        done
        try 0 "$where: --version" "$program" --version
        [ "$(cat "$tmp/out")" = "kujawian $(cat VERSION)" ] || wrong "$what: prints $(cat "$tmp/out")"
        try 2 "$where: an empty name" "$program" ''
        try 2 "$where: an option that is not there" within "$in" "$program" -dash
        says 'no option -dash'
        silent
        try 2 "$where: a folder" "$program" "$in"
        says 'is a folder'
        try 2 "$where: a missing file" "$program" "$in/nosuch"
        says 'no such file'
        try 2 "$where: a missing folder, though /etc is there" "$program" nosuch/etc
        says 'no such file'
        try 2 "$where: a link to nowhere" "$program" "$in/dangling"
        try 2 "$where: -- and nothing" "$program" --
        for unread in damaged damaged-sum damaged-more; do
            try 2 "$where: $unread gzip" "$program" "$in/$unread"
            says 'damaged gzip'
            silent
        done
        try 2 "$where: /dev/full" sh -c '"$1" "$2" >/dev/full' sh "$program" "$job"
        says 'could not be written'
        try 2 "$where: --help to /dev/full" sh -c '"$1" --help >/dev/full' sh "$program"
        try 2 "$where: output closed" sh -c '"$1" "$2" >&-' sh "$program" "$job"
        says 'could not be written'
        try 2 "$where: input closed" timeout 60 sh -c '"$1" - <&-' sh "$program"
        for signal in - "''"; do
            sh -c 'trap '"$signal"' PIPE; { sleep 0.3; "$1" "$2" 2>"$3/pipe.err"; echo $? >"$3/pipe"; } | :' sh "$program" "$saved" "$tmp"
            tried=$((tried + 1))
            [ "$(cat "$tmp/pipe")" = 2 ] || wrong "$where: a closed pipe: exit status $(cat "$tmp/pipe"), expected 2"
        done
    done
    # Root may read everything, so another user is needed, who may not reach the clone itself: its copy below is tried.
    [ "$where" = clone ] || unreadable "$list"

    listed=$top/crates/lister/stdout
    ran=$top/crates/runner/stdout
    try 0 "$where: a job" "$run" "$job"; prints "$ran"; quiet
    try 0 "$where: a saved state" "$list" "$saved"; prints "$listed"; quiet
    try 0 "$where: a name with spaces" "$list" "$in/a folder/a state with spaces"; prints "$listed"; quiet
    try 0 "$where: another working folder" within "$in/a folder" "$list" 'a state with spaces'; prints "$listed"
    try 0 "$where: -- before a dash" within "$in" "$list" -- -dash; prints "$listed"
    try 0 "$where: ./ before a dash" within "$in" "$list" ./-dash; prints "$listed"
    try 0 "$where: -- and a file named -" within "$in" "$list" -- -; prints "$listed"
    try 0 "$where: standard input" sh -c '"$1" - <"$2"' sh "$list" "$saved"; prints "$listed"
    try 0 "$where: standard input, a pipe" sh -c 'cat "$2" | "$1" -' sh "$run" "$job"; prints "$ran"
    try 0 "$where: standard input, gzip'd" sh -c 'cat "$2" | "$1" -' sh "$list" "$in/packed"; prints "$listed"
    try 1 "$where: standard input without end" sh -c '"$1" - </dev/zero' sh "$list"
    try 0 "$where: gzip without .gz" "$list" "$in/packed"; prints "$listed"
    try 0 "$where: a gzip'd job" "$run" "$in/packed-job.txt"; prints "$ran"
    try 0 "$where: .gz without gzip" "$list" "$in/plain.gz"; prints "$listed"

    rm -rf "$tmp/links"
    mkdir "$tmp/links"
    ln -s "$list" "$tmp/links/first"
    ln -s first "$tmp/links/second"
    try 0 "$where: a link to a link to the script" within / "$tmp/links/second" "$saved"; prints "$listed"

    # refusals: the number on standard output, the words on standard error
    while IFS=: read -r input answer words; do
        try 1 "$where: $input" "$run" "$in/$input"
        [ "$(cat "$tmp/out")" = "$answer" ] || wrong "$what: prints $(head -n 1 "$tmp/out"), expected $answer"
        [ "$(cat "$tmp/err")" = "$answer: $words" ] || wrong "$what: says '$(cat "$tmp/err")', expected '$answer: $words'"
    done <<END
reserved:1 1:reserved opcode at position 1
memory:7 1:memory opcode at position 1
word:2 0:reserved control word at position 0
disabled:3 0:the processor is disabled: VEN is 0
seventeen:8 0:more than 16 instructions
cut-record:8 0:the last instruction record is cut
filler:8 0:an instruction record has a byte 1 or 4 to 7 that is not zero
cut:10 700:bad saved state at record 700: the file ends within it
empty:10 0:bad saved state at record 0: the file is empty
one:10 0:bad saved state at record 0: the file ends within it
END
    for input in tests/lister/*.in.gz; do
        case $(head -n 1 "${input%.in.gz}.out") in bad*) due=1 ;; *) due=0 ;; esac
        try $due "$where: $input" "$list" "$input"
        prints "${input%.in.gz}.out"
        if [ $due -eq 0 ]; then quiet; else says "^$(cat "${input%.in.gz}.out"): "; fi
    done
}
front "$top/run" "$top/list" clone

# ---- building. A copy of the clone that nothing is built in, and in place of rt one that is slow and takes what is built here.
clone=$tmp/clone
mkdir -p "$clone/crates" "$tmp/stand-in"
cp -R lib run list crates.txt VERSION "$clone"
for crate in $(home=$top; name=front; . lib/build.sh; trap - EXIT; plan lister | sed 's/.*://'); do
    mkdir "$clone/crates/$crate"
    for part in src specs proofs; do
        [ ! -e "crates/$crate/$part" ] || cp -R "crates/$crate/$part" "$clone/crates/$crate"
    done
done
cat >"$tmp/stand-in/rt" <<END
#!/bin/sh
# stands in for rt, in a crate's folder: rt lib; of a program rt run
crate=\${PWD##*/}
echo "\$* \$crate" >>"$tmp/rt.log"
mkdir -p out
if [ "\$*" = "run" ]; then
    head -c 500 "$top/target/bin/\$crate" >"out/\$crate"
    chmod +x "out/\$crate"
    sleep 1
    cp "$top/target/bin/\$crate" "out/\$crate"
fi
[ "\$crate" != lister ] || [ ! -e "$tmp/no-proof" ] || { echo "fn lister::main: not proved"; exit 1; }
END
chmod +x "$tmp/stand-in/rt"
# The tools, without rt and without flock.
mkdir "$tmp/tools"
for tool in sh awk basename cat chmod cp cut date dd dirname find flock grep gzip head ls mkdir mktemp mv od readlink rm sed sleep sort tail tr uniq wc; do
    path=$(command -v "$tool") && ln -s "$path" "$tmp/tools/$tool"
done
listed=$top/crates/lister/stdout

try 2 "without rt" env PATH="$tmp/tools" "$clone/list" "$saved"
says 'no rt on the path'
[ "$(wc -l <"$tmp/err")" -eq 1 ] || wrong "$what: more than one line"
silent
try 2 "without rt, and a missing file" env PATH="$tmp/tools" "$clone/list" nosuch
says 'no such file'
: >"$tmp/no-proof"
try 2 "a build that fails" env PATH="$tmp/stand-in:$tmp/tools" "$clone/list" "$saved"
says 'could not be built'
silent
rm "$tmp/no-proof"

for locks in flock mkdir; do
    [ $locks = flock ] || rm -f "$tmp/tools/flock"
    rm -rf "$clone/target" "$tmp/rt.log"
    for k in 1 2 3; do
        (
            status=0
            env PATH="$tmp/stand-in:$tmp/tools" "$clone/list" "$saved" >"$tmp/out.$k" 2>"$tmp/err.$k" || status=$?
            echo $status >"$tmp/status.$k"
        ) &
    done
    wait
    tried=$((tried + 1))
    for k in 1 2 3; do
        [ "$(cat "$tmp/status.$k")" = 0 ] && cmp -s "$tmp/out.$k" "$listed" ||
            wrong "three at once ($locks): number $k ended with $(cat "$tmp/status.$k"): $(tail -n 2 "$tmp/err.$k")"
    done
    [ "$(grep -c '^run lister$' "$tmp/rt.log")" = 1 ] || wrong "three at once ($locks): the lister was built $(grep -c '^run lister$' "$tmp/rt.log") times"
    [ "$(grep -c '^lib state$' "$tmp/rt.log")" = 1 ] || wrong "three at once ($locks): the crate state was built $(grep -c '^lib state$' "$tmp/rt.log") times"
    cat "$tmp"/err.[123] >"$tmp/err.all"
    grep -q 'proving 3 of 6: state$' "$tmp/err.all" || wrong "a build ($locks) does not say 'proving 3 of 6: state' but: $(head -n 3 "$tmp/err.all")"
    grep -q 'waiting' "$tmp/err.all" || wrong "three at once ($locks): none says that it waits"
    try 0 "what is built is not built again ($locks)" env PATH="$tmp/tools" "$clone/list" "$saved"
    prints "$listed"
    quiet
done
# A lock whose holder is gone holds nobody up.
mkdir "$clone/target/lock.held"
sh -c 'echo $$' >"$clone/target/lock.held/pid"
sleep 1
touch "$clone/crates/lister/src/main.rt"
try 0 "a lock left behind" env PATH="$tmp/stand-in:$tmp/tools" "$clone/list" "$saved"
prints "$listed"
says 'proving 6 of 6: lister'
[ ! -e "$clone/target/lock.held" ] || wrong "$what: the lock is still held"

# ---- another user, who may not write
chmod -R go+rX "$clone"
[ "$(id -u)" = 0 ] || chmod -R a-w "$clone"
if as_other sh -c ': >"$1/written"' sh "$clone" 2>/dev/null; then
    wrong "the copy of the clone can be written by another user, so nothing was tried"
fi
try 0 "another user, who may not write" as_other "$clone/list" "$in/a folder/a state with spaces"
prints "$listed"
quiet
try 1 "another user, refused" as_other "$clone/list" "$in/cut"
says '^bad record 700: '
unreadable "$clone/list"
chmod -R u+w "$clone"
sleep 1
touch "$clone/crates/state/src/lib.rt"
[ "$(id -u)" = 0 ] || chmod -R a-w "$clone"
try 2 "another user, and something is to be built" as_other env PATH="$tmp/stand-in:$PATH" "$clone/list" "$in/packed"
says 'may not write'
silent

# ---- the real rt: nothing has changed but a time
if command -v rt >/dev/null 2>&1 && [ -w target ]; then
    touch crates/lister/src/main.rt
    try 0 "rt, on a file that was touched" ./list "$saved"
    prints "$listed"
    says 'proving 6 of 6: lister'
    try 0 "rt is not called again" ./list "$saved"
    quiet
fi

# ---- installing
prefix=$tmp/prefix
try 0 "make install" sh -c 'umask 077; exec make -s install PREFIX="$1"' sh "$prefix"
chmod 755 "$prefix"
try 0 "make install below DESTDIR" make -s install DESTDIR="$tmp/dest dir" PREFIX=/opt/kuj
[ -f "$tmp/dest dir/opt/kuj/lib/libkujawian.a" ] || wrong "$what: no archive there"
grep -q '^prefix=/opt/kuj$' "$tmp/dest dir/opt/kuj/lib/pkgconfig/kujawian.pc" || wrong "$what: kujawian.pc names another prefix"
try 0 "a program below DESTDIR" "$tmp/dest dir/opt/kuj/bin/kujawian-list" "$saved"
prints "$listed"
front "$prefix/bin/kujawian-run" "$prefix/bin/kujawian-list" installed
try 0 "installed, another user, without rt" as_other env PATH="$tmp/tools" "$prefix/bin/kujawian-list" "$in/packed"
prints "$listed"
[ "$(grep -c "$top" "$prefix/bin/kujawian-list" "$prefix/libexec/kujawian/lib/front.sh" | grep -vc ':0$')" = 0 ] || wrong "an installed program names the clone"

version=$(cat VERSION)
PKG_CONFIG_PATH=$prefix/lib/pkgconfig
export PKG_CONFIG_PATH
[ "$(pkg-config --modversion kujawian)" = "$version" ] || wrong "pkg-config gives another version than VERSION"
macro() { echo "KUJ_VERSION$1" | gcc -E -P -include "$prefix/include/kujawian.h" -xc - 2>/dev/null | tail -n 1 | tr -d '" '; }
if grep -q 'define KUJ_VERSION' include/kujawian.h; then
    for part in MAJOR:1 MINOR:2 PATCH:3; do
        [ "$(macro "_${part%:*}")" = "$(echo "$version" | cut -d . -f "${part#*:}")" ] || wrong "the header's KUJ_VERSION_${part%:*} is $(macro "_${part%:*}"), and VERSION has $version"
    done
    if grep -q 'define KUJ_VERSION[ (]' include/kujawian.h && [ "$(macro '' | cut -c 1-3)" != KUJ ]; then
        [ "$(macro '')" = "$version" ] || wrong "the header's KUJ_VERSION is $(macro ''), and VERSION has $version"
    fi
fi
lib/calls.sh >"$tmp/calls"
nm -D --defined-only "$prefix/lib/libkujawian.so" | sed 's/.* //' | sort | cmp -s - "$tmp/calls" || wrong "the shared library does not export exactly the calls of the header"
objdump -p "$prefix/lib/libkujawian.so" | grep -q "SONAME  *libkujawian.so.${version%.*}\$" || wrong "the shared library has another soname"
objdump -h "$prefix/lib/libkujawian.a" | awk '$2 ~ /^\.text\./ && $7 != "2**6" { bad = 1 } END { exit bad }' || wrong "a function of the archive is not aligned"

# ---- four languages, against what was installed
sh examples/unlist.sh <examples/kettle.listing >"$tmp/saved"
awk '/^ *[0-9]/ { print $1, $2 }' examples/kettle.expected >"$tmp/readings"
head -c 11207 "$tmp/saved" >"$tmp/saved.cut"
flags=$(pkg-config --cflags --libs kujawian)
libdir=$(pkg-config --variable=libdir kujawian)
# shellcheck disable=SC2086
{
    try 0 "C builds" gcc -std=c11 -Wall -Wextra -Werror -pedantic examples/readings.c $flags -o "$tmp/readings-c"; quiet
    try 0 "C builds, with the archive" gcc -std=c11 -Wall -Wextra -Werror examples/readings.c -I"$prefix/include" "$libdir/libkujawian.a" -o "$tmp/readings-a"; quiet
    try 0 "C++ builds" g++ -std=c++11 -Wall -Wextra -Werror -pedantic examples/readings.cc $flags -o "$tmp/readings-cc"; quiet
}
try 0 "Rust builds" rustc --edition 2021 -D warnings examples/readings.rs -L native="$libdir" -l kujawian -o "$tmp/readings-rs"; quiet
try 0 "Rust builds, with the archive" rustc --edition 2021 -D warnings examples/readings.rs -L native="$libdir" -l static=kujawian -o "$tmp/readings-ra"; quiet
for language in c a cc rs ra py; do
    case $language in py) set -- python3 examples/readings.py ;; *) set -- "$tmp/readings-$language" ;; esac
    [ $language = py ] || [ -x "$1" ] || continue
    case $language in a | ra) path= ;; *) path=$libdir ;; esac
    try 0 "readings ($language)" env LD_LIBRARY_PATH="$path" "$@" "$tmp/saved"
    prints "$tmp/readings"
    quiet
    try 1 "readings of a cut file ($language)" env LD_LIBRARY_PATH="$path" "$@" "$tmp/saved.cut"
    [ "$(cat "$tmp/out")" = "refused: 10 700" ] || wrong "$what: prints $(head -n 1 "$tmp/out")"
    try 2 "readings of no file ($language)" env LD_LIBRARY_PATH="$path" "$@" "$tmp/nosuch"
    says 'No such file'
done

# ---- and away
try 0 "make uninstall" make -s uninstall PREFIX="$prefix"
left=$(find "$prefix" ! -type d)
[ -z "$left" ] || wrong "make uninstall leaves $left"

[ $failed -eq 0 ] || { echo "front: $failed of $tried failed"; exit 1; }
echo "front: $tried tried: arguments, exit status, builds, installing and four languages as they should be"

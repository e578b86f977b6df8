#!/bin/sh
# Puts every call of include/kujawian.h from C and holds what it gives to document 01 (tests/header.c). Exits with 1 on a difference.
# No proof sees in which order an exported call takes its parameters, nor in which order the header names them. So each argument is
# given by its name in the header: for every declaration there, target/header/by_name.h has a struct of the parameters and a call
# that hands them on in the header's order.
# KUJAWIAN_ARCHIVES names a folder that already holds libkujawian.a; else it is built.
set -eu
cd "$(dirname "$0")/.."
home=$PWD name=tests/header.sh
. lib/build.sh
find_archive kujawian
out=target/header
mkdir -p "$out"

# One declaration to a line, without comments: the call's name, a space, its parameters.
gcc -std=c11 -E -P include/kujawian.h | tr '\n' ' ' | tr ';' '\n' >"$out/text"
sed -n 's/^ *uint32_t \(kuj_[a-z0-9_]*\)(\([^()]*\)) *$/\1 \2/p' "$out/text" >"$out/declarations"
if [ "$(grep -c 'kuj_[A-Za-z0-9_]* *(' "$out/text")" -ne "$(wc -l <"$out/declarations")" ]; then
    echo "header: a declaration of the header could not be read"
    exit 1
fi
awk '
    {
        name = $1
        sub(/^[^ ]* /, "")
        n = split($0, parameters, /,/)
        members = given = ""
        for (k = 1; k <= n; k++) {
            p = parameters[k]
            sub(/ *$/, "", p)
            if (sub(/\[[^]]*\]$/, "", p))
                sub(/[A-Za-z0-9_]+$/, "*&", p)  # an array is taken as a pointer
            match(p, /[A-Za-z0-9_]+$/)
            members = members " " p ";"
            given = given (k > 1 ? ", " : "") "a." substr(p, RSTART)
        }
        printf "struct args_%s {%s };\n", name, members
        printf "static inline uint32_t by_name_%s(struct args_%s a) { return %s(%s); }\n", name, name, name, given
        places = places " of_" name ","
        names = names " \"" name "\","
    }
    END {
        printf "enum {%s CALLS };\n", places
        printf "static const char *const names[] = {%s };\n", names
    }' "$out/declarations" >"$out/by_name.h"

gcc -O2 -std=c11 -Wall -Wextra -Werror -Iinclude -I"$out" -o "$out/header" tests/header.c "$archives/libkujawian.a"
status=0
"$out/header" || status=$?
[ "$status" -le 1 ] || echo "header: DIFFERS, the call after the last line ended the program (exit status $status)"
[ "$status" -eq 0 ]

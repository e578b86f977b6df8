#!/bin/sh
# What a reader must believe stands apart. A file of definitions (crates/*/specs) that a promise cites, itself or through other
# definitions, is believed, and so is what the three demands say; one that none cites has Working in its name, and no believed file uses it. docs/READING.md lists the believed
# files, all of them and in an order in which each stands on those before it. Counts what there is to read: lines that are neither empty
# nor a comment nor an import.
set -eu
cd "$(dirname "$0")/.."

# The promises, which are the contracts of public functions: of the calls for C, and then of the reading as a value, of the programs and of
# the floating operations alone.
calls=crates/kujawian_c/src/lib.rt
others="crates/panel/src/lib.rt crates/listing/src/lib.rt crates/running/src/lib.rt crates/input/src/lib.rt crates/floating_c/src/lib.rt"

# The calls of kujawian, which those for C call, and which the three demands are about.
called=crates/kujawian/src/lib.rt

# What the theorems of the three demands say is believed too.
theorems=$(find crates/demands/specs -name '*.antt' ! -name Lib.antt | sort)

definitions=$(find crates/*/specs -name '*.antt' ! -name Lib.antt | sort)

# cited FILE...: the files of definitions that these cite, themselves or through others, one a line. A source cites what its public
# contracts name, a file of definitions all that it imports.
cited() {
    # shellcheck disable=SC2086
    awk -v roots="$*" '
        FNR == 1 { is_there[FILENAME] = 1 }
        # Of a public function the clauses are read, from the first to the body.
        FILENAME ~ /\.rt$/ && /^[a-z#{]/ { public = /^pub /; clauses = 0 }
        FILENAME ~ /\.rt$/ && public && /^ *(requires|ensures) / { clauses = 1 }
        FILENAME ~ /\.rt$/ && clauses { said[FILENAME] = said[FILENAME] " " $0 }
        match($0, /^(ghost )?use Rattle\.[a-z_]+\.specs\.[A-Z][A-Za-z]*\./) {
            path = substr($0, RSTART, RLENGTH - 1)
            names = substr($0, RSTART + RLENGTH)
            gsub(/[{};]/, "", names)
            sub(/^(ghost )?use Rattle\./, "", path)
            split(path, part, ".")
            n = ++uses[FILENAME]
            to[FILENAME, n] = "crates/" part[1] "/specs/" part[3] ".antt"
            brought[FILENAME, n] = names
        }
        # whether one of the names that an import brings stands in a text
        function named(names, text,   k, m, name) {
            m = split(names, name, /, */)
            for (k = 1; k <= m; k++) {
                sub(/.* as /, "", name[k])
                if (index(" " text " ", " " name[k] " ")) return 1
            }
            return 0
        }
        END {
            left = roots
            while (left != "") {
                n = split(left, file, " ")
                left = ""
                for (i = 1; i <= n; i++) {
                    text = said[file[i]]
                    gsub(/[(){},]/, " ", text)
                    for (j = 1; j <= uses[file[i]]; j++) {
                        next_file = to[file[i], j]
                        # A definition of the library is not one of the repository.
                        if (next_file in seen || !(next_file in is_there)) continue
                        if (file[i] ~ /\.rt$/ && !named(brought[file[i], j], text)) continue
                        seen[next_file] = 1
                        print next_file
                        left = left " " next_file
                    }
                }
            }
        }' $calls $others $definitions | sort
}

# lines FILE...: how many of their lines say something
lines() {
    cat "$@" | grep -cvE '^[[:space:]]*(--.*)?$|^use '
}

bad=0
say() {
    echo "believed: $*"
    bad=1
}

# What C calls and what the demands are about promise the same, word for word.
said_by() {
    awk '/^[a-z#{]/ { public = /^pub / } public { sub(/^pub extern "C" /, "pub "); print }' "$1"
}
if [ "$(said_by "$calls")" != "$(said_by "$called")" ]; then
    say "$calls and $called do not promise the same"
fi

# shellcheck disable=SC2086
believed=$({ cited "$calls" $others $theorems; echo "$theorems"; } | sort -u)
for file in $definitions; do
    case $file in *Working.antt) working=yes ;; *) working=no ;; esac
    if echo "$believed" | grep -qxF "$file"; then
        if [ $working = yes ]; then say "a promise, or what it cites, uses $file"; fi
    else
        if [ $working = no ]; then say "no promise cites $file, and its name does not say so"; fi
    fi
done

# The readers' page: each believed file once, after those that it cites.
listed=$(sed -n 's/^[0-9]*\. `\(crates\/[^`]*\.antt\)`.*/\1/p' docs/READING.md)
if [ "$(echo "$listed" | sort)" != "$believed" ]; then
    say "docs/READING.md does not list the believed files, each once; on one side alone:"
    { echo "$listed"; echo "$believed"; } | sort | uniq -u
fi
before=
for file in $listed; do
    for cites in $(cited "$file"); do
        case "$before $file " in
        *" $cites "*) ;;
        *) say "docs/READING.md has $file before $cites, which it cites" ;;
        esac
    done
    before="$before $file"
done
if [ $bad -ne 0 ]; then exit 1; fi

# shellcheck disable=SC2046
for_c=$(lines $(cited "$calls"))
promises=$(grep -c '^    ensures' "$calls")
# shellcheck disable=SC2086
all=$(lines $believed)
echo "believed: $for_c lines of definitions and $promises promises for the calls from C; $all lines with the programs and the three demands"

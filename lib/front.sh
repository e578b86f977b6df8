# Sourced by run and list, in a clone or as installed: looks at the argument, runs the program on the file and judges what it printed.
# $name is what the user called, $program the proved program, $home the clone, or the folder that this file was installed in.
set -u
unset CDPATH
LC_ALL=C
export LC_ALL

. "$home/lib/say.sh"

case $program in
runner)
    argument=JOB
    does="Runs the job in JOB: a saved state, then instruction records. Prints the number that the
queue got and what stands beside it and then, if it was done, the listing of the new state."
    ;;
*)
    argument=FILE
    does="Lists the saved state in FILE."
    ;;
esac
if [ -f "$home/crates.txt" ]; then
    called=./$name formats=docs/FORMATS.md
else
    name=kujawian-$name
    called=$name formats=share/doc/kujawian/FORMATS.md
fi

usage() {
    cat <<END
usage: $called [--] $argument      or  $called -   for standard input
END
}

help() {
    usage
    cat <<END

$does
The file is plain or gzip'd; $formats has the format.
A name that begins with a dash: $called -- $argument, or ./ before the name.

  -h, --help     this text
  --version      the version

Exit status:
  0  done
  1  the input was refused: standard output has the program's answer, standard error the reason in words
  2  wrong usage, a file that cannot be read, output that cannot be written, or nothing could be built
END
}

# show FILE: to standard output, or ends with 2.
show() {
    cat "$1" 2>/dev/null || fail "the output could not be written"
}

room() {
    work=$(mktemp -d 2>/dev/null) || fail "there is no room for temporary files in ${TMPDIR:-/tmp}"
}

# ---- the argument
file=
case ${1-} in
-h | --help | --version)
    [ $# -eq 1 ] || { usage >&2; exit 2; }
    room
    if [ "$1" = --version ]; then echo "kujawian $(cat "$home/VERSION")"; else help; fi >"$work/text"
    show "$work/text"
    exit 0
    ;;
--)
    shift
    [ $# -eq 1 ] || { usage >&2; exit 2; }
    file=$1
    [ "$file" != - ] || file=./-
    ;;
-)
    [ $# -eq 1 ] || { usage >&2; exit 2; }
    ;;
-*)
    complain "there is no option $1; for a file of that name: $called -- $1"
    usage >&2
    exit 2
    ;;
*)
    [ $# -eq 1 ] || { usage >&2; exit 2; }
    [ -n "$1" ] || fail "the name of the file is empty"
    file=$1
    ;;
esac
if [ -n "$file" ]; then
    case $file in /*) ;; *) file=./$file ;; esac
    said=${file#./}
    [ -e "$file" ] || fail "$said: there is no such file"
    [ ! -d "$file" ] || fail "$said is a folder"
    [ -r "$file" ] || fail "$said may not be read by you"
    (: <"$file") 2>/dev/null || fail "$said cannot be opened"
    exec <"$file"
else
    said="standard input"
    (: 3<&0) 2>/dev/null || fail "$said is closed"
fi

# ---- the program
if [ -f "$home/crates.txt" ]; then
    . "$home/lib/build.sh"
    build program "$program"
    binary=$home/target/bin/$program
else
    binary=$home/$program
fi
[ -x "$binary" ] || fail "$binary is missing, or may not be run by you"

# ---- its input. No program reads more than 16,721 bytes, so that is all that is taken, and one more.
room
most=16722
taken() { head -c "$most" && cat >/dev/null; }
first=$({ dd bs=1 count=2 2>"$work/said" || : >"$work/unread"; } | od -An -v -to1 | tr -s ' \n' '\\' | sed 's/\\$//')
[ ! -e "$work/unread" ] || fail "$said cannot be read: $(sed -n 's/^dd: //p' "$work/said" | head -n 1)"
case $first in
'\037\213')
    command -v gzip >/dev/null 2>&1 || fail "$said is gzip'd, and there is no gzip on the path"
    {
        { printf '\037\213'; cat; } | gzip -dc 2>"$work/said" || : >"$work/damaged"
    } | taken >"$work/input" || fail "there is no room for temporary files in ${TMPDIR:-/tmp}"
    [ ! -e "$work/damaged" ] || fail "$said is a damaged gzip file: $(sed -n 's/^gzip: *//; s/^stdin: *//; /./{p;q;}' "$work/said")"
    ;;
*)
    # shellcheck disable=SC2059
    { printf "$first" && head -c "$((most - 2))" 2>"$work/said"; } >"$work/input" ||
        fail "$said cannot be read to its end: $(sed 's/^head: //' "$work/said")"
    ;;
esac

# ---- the run, and its end
"$binary" <"$work/input" >"$work/output" 2>"$work/said" || fail "the $program ended with status $?"
[ -s "$work/output" ] || fail "the $program printed nothing"
show "$work/output"

# bad_record RECORD: what is wrong with it
bad_record() {
    size=$(wc -c <"$work/input")
    at=$(($1 * 16))
    if [ "$size" -eq 0 ]; then echo "the file is empty"
    elif [ "$1" -eq 1029 ]; then echo "more follows the last record, 1028"
    elif [ "$size" -le "$at" ]; then echo "the file ends before it"
    elif [ "$size" -lt $((at + 16)) ]; then echo "the file ends within it"
    else
        # shellcheck disable=SC2046
        set -- "$1" $(od -An -v -tu1 -j "$at" -N 16 "$work/input")
        if [ $(($2 + 256 * $3)) -ne "$1" ]; then echo "it bears the number $(($2 + 256 * $3))"
        elif [ "$4$5$6$7$8$9" != 000000 ]; then echo "one of its bytes 2 to 7 is not zero"
        else
            case $1 in
            1024) echo "VLR is above 64" ;;
            1026) echo "VCR is above 64" ;;
            1027) echo "VAER has a bit that it may not have" ;;
            1028) echo "VPSR has a bit that it may not have" ;;
            *) echo "its contents are refused" ;;
            esac
        fi
    fi
}

# words NUMBER BESIDE: what the number means
words() {
    case $1 in
    0) echo "done" ;;
    1) echo "reserved opcode at position $2" ;;
    2) echo "reserved control word at position $2" ;;
    3) echo "the processor is disabled: VEN is 0" ;;
    4) echo "window not allowed" ;;
    5) echo "misaligned address at element $2" ;;
    6) echo "outside the window at element $2" ;;
    7) echo "memory opcode at position $2" ;;
    8) bad_queue ;;
    9) echo "order not permitted at list position $2" ;;
    10) echo "bad saved state at record $2: $(bad_record "$2")" ;;
    11) echo "control value refused" ;;
    12) echo "state out of range" ;;
    13) echo "no such field" ;;
    *) echo "a number without words" ;;
    esac
}

# bad_queue: why the bytes after the saved state are no queue
bad_queue() {
    size=$(($(wc -c <"$work/input") - 16464))
    if [ "$size" -gt 256 ]; then echo "more than 16 instructions"
    elif [ $((size % 16)) -ne 0 ]; then echo "the last instruction record is cut"
    else echo "an instruction record has a byte 1 or 4 to 7 that is not zero"
    fi
}

IFS= read -r answer <"$work/output"
case $program:$answer in
runner:'0 0' | lister:V*) exit 0 ;;
lister:'bad record '*)
    printf '%s: %s\n' "$answer" "$(bad_record "${answer#bad record }")" >&2
    exit 1
    ;;
runner:[0-9]*' '[0-9]*)
    printf '%s: %s\n' "$answer" "$(words "${answer% *}" "${answer#* }")" >&2
    exit 1
    ;;
*) fail "the $program printed what it never should: $answer" ;;
esac

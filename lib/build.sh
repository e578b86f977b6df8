# Sourced. Builds what is not up to date: the programs (target/bin) and the archives for C (target/staticlib), each a copy of what rt makes
# in the crate's folder out. $home is the clone. What is done goes to standard error, crate by crate. One build at a time: others wait.
# KUJAWIAN_ARCHIVES may name a folder with archives that are to be taken as they are.
. "$home/lib/say.sh"

# plan NAME: LEVEL:NAME of the crates that NAME stands on, itself too. Those of one level need nothing of each other.
plan() {
    awk -v wanted="$1" '
        function visit(n,   a, k, m, l) {
            if (n in level) return
            m = split(needs[n], a, " ")
            for (k = 1; k <= m; k++) if (a[k] in needs) { visit(a[k]); if (level[a[k]] >= l) l = level[a[k]] + 1 }
            level[n] = l + 0
            print level[n] ":" n
        }
        { sub(/#.*/, "") }
        split($0, part, ":") == 2 && split(part[1], word, " ") { needs[word[1]] = part[2] }
        END { if (wanted in needs) visit(wanted) }' "$home/crates.txt" | sort -s -t: -n -k1,1
}

# crate_of NAME: the crate that NAME is built from. The library that is linked is a crate apart from the one that does the work.
crate_of() {
    case $1 in
    kujawian) echo kujawian_c ;;
    *) echo "$1" ;;
    esac
}

# up_to_date NAME MADE MARK: whether MADE is there, and nothing that NAME is built from is newer than MARK.
up_to_date() {
    [ -f "$2" ] && [ -r "$2" ] && [ -f "$3" ] || return 1
    ut_crates=$(plan "$(crate_of "$1")" | sed 's/^[0-9]*://')
    ut_newer=$(
        cd "$home" || exit
        find crates.txt -newer "$3"
        for ut_crate in $ut_crates; do
            for ut_part in src specs proofs; do
                [ ! -e "crates/$ut_crate/$ut_part" ] || find "crates/$ut_crate/$ut_part" -newer "$3"
            done
        done
    ) || return 1
    [ -z "$ut_newer" ]
}

# lock, unlock: one build at a time in this clone.
lock() {
    if command -v flock >/dev/null 2>&1; then
        (: >>"$home/target/lock") 2>/dev/null || fail "$home/target/lock may not be written by you"
        exec 9>>"$home/target/lock"
        flock -n 9 || { complain "another build is under way here: waiting for it"; flock 9; }
    else
        lk_said=
        until mkdir "$home/target/lock.held" 2>/dev/null; do
            # One that was killed leaves the lock behind.
            lk_owner=$(cat "$home/target/lock.held/pid" 2>/dev/null) || lk_owner=
            if [ -n "$lk_owner" ] && ! kill -0 "$lk_owner" 2>/dev/null && [ ! -d "/proc/$lk_owner" ]; then
                rm -rf "$home/target/lock.held"
                continue
            fi
            [ -n "$lk_said" ] || complain "another build is under way here: waiting for it"
            lk_said=yes
            sleep 1
        done
        held=$home/target/lock.held
        echo $$ >"$held/pid"
    fi
}

unlock() {
    if [ -n "$held" ]; then rm -rf "$held"; else exec 9>&-; fi
    held=
}

# prove KIND NAME: builds the crate that NAME is, the crates below it first, each by a call of its own, so that what is being proved can be said
# before it is. A program is run once when it is built, on no input; what it prints is not looked at.
prove() {
    pv_crates=$(plan "$(crate_of "$2")" | sed 's/^[0-9]*://')
    pv_all=$(($(printf '%s\n' "$pv_crates" | wc -l)))
    pv_at=0
    for pv_crate in $pv_crates; do
        pv_at=$((pv_at + 1))
        complain "proving $pv_at of $pv_all: $pv_crate"
        pv_verb=lib
        [ "$1" != program ] || [ "$pv_crate" != "$2" ] || pv_verb=run
        (cd "$home/crates/$pv_crate" && rt "$pv_verb") </dev/null >"$home/target/build.log" 2>&1 9>&- || return 1
    done
}

# build KIND NAME: KIND is program or archive. Returns once target/bin/NAME or target/staticlib/libNAME.a is up to date, or ends.
build() {
    bd_crate=$(crate_of "$2")
    case $1 in
    program) bd_what="the $2" bd_made=$home/target/bin/$2 bd_from=$home/crates/$bd_crate/out/$bd_crate ;;
    archive) bd_what=lib$2.a bd_made=$home/target/staticlib/lib$2.a bd_from=$home/crates/$bd_crate/out/lib$bd_crate.a ;;
    esac
    bd_mark=$home/target/built/$2.$1
    up_to_date "$2" "$bd_made" "$bd_mark" && return 0
    command -v rt >/dev/null 2>&1 ||
        fail "$bd_what has to be built, and there is no rt on the path: the Rattle kit is missing (README.md, \"Run it\")"
    mkdir -p "$home/target/built" "${bd_made%/*}" 2>/dev/null && [ -w "$home/target" ] && [ -w "$home/target/built" ] && [ -w "${bd_made%/*}" ] ||
        fail "$bd_what has to be built, and you may not write in $home/target"
    lock
    if ! up_to_date "$2" "$bd_made" "$bd_mark"; then
        complain "building $bd_what; the first time it takes some minutes"
        rm -f "$bd_mark"
        : >"$bd_mark.new"
        if ! prove "$1" "$2"; then
            tail -n 20 "$home/target/build.log" | cut -c 1-300 >&2
            fail "$bd_what could not be built; $home/target/build.log has all that was said"
        fi
        # It takes its name last, so that what runs is never cut.
        cp "$bd_from" "$bd_made.new" && mv -f "$bd_made.new" "$bd_made" || fail "$bd_what could not be put into ${bd_made%/*}"
        mv "$bd_mark.new" "$bd_mark"
        complain "built"
    fi
    unlock
}

# find_archive NAME: sets archives to a folder that holds libNAME.a: the one that KUJAWIAN_ARCHIVES names, else it is built.
find_archive() {
    archives=${KUJAWIAN_ARCHIVES:-}
    if [ -n "$archives" ]; then
        [ -f "$archives/lib$1.a" ] || fail "KUJAWIAN_ARCHIVES names $archives, and lib$1.a is not there"
        return 0
    fi
    build archive "$1"
    # shellcheck disable=SC2034
    archives=$home/target/staticlib
}

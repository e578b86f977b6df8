#!/bin/sh
# A must-fail edit that only made a proof file unfit for the code shows nothing: it has to be refused because a fact is false. What rt says of
# it tells: a line for each edit, with the first error or open fact of its check that does not come from a name which the edit took away, as far as
# 160 characters. An edit shows nothing where rt says that only such names failed, that a limit of the prover was met, that the edit could not be
# applied or read, that it was not tried or is still proved; where no error and no open fact stands there; or where the error that stands there
# says that a field, a name or a goal is not there (rt reads the first line of a message alone), that something is not of a goal's type or that the
# prover stopped, or stands in the source or in a definition, whose text then says nothing.
#   tests/edits.sh [LOG]      LOG: what 'rt ci' or 'rt must-fail' said; with none, rt must-fail is called here
set -eu
cd "$(dirname "$0")/.."

# judged LINE: what is wrong with what rt says of an edit; nothing where a fact is false.
judged() {
    said=${1#rt: must-fail *.edit: }
    case $said in
    'refused, as it must be: '*) said=${said#refused, as it must be: } ;;
    'refused, as it must be (only because '*) echo "the proof no longer fits the code" && return ;;
    'refused, as it must be (only by a limit'*) echo "the prover stopped before it knew" && return ;;
    'refused, as it must be'*) echo "no fact is left open" && return ;;
    'NOT REFUSED'*) echo "it is still proved" && return ;;
    'NOT TRIED'*) echo "it was not tried to the end" && return ;;
    'BAD EDIT'*) echo "it cannot be applied or read" && return ;;
    *) echo "rt says something else: $said" && return ;;
    esac
    printf '%s\n' "$said" | awk '
        /^note: / { if ($0 !~ /it is not proved that/) print "no fact is left open"; exit }
        /^[^ ]*: error/ {
            file = $1
            sub(/^[^ ]*: error(\[[a-z-]*\])?: */, "")
            sub(/^`[^`]*`: */, "")
            if (/has no (field|`)|is not in scope|was not admitted|is private|expected type `goal\./ || /^(record|module)( `|$)/ || /^(`goal\.|no module)/)
                print "the proof no longer fits the code"
            else if (/stopped at (the step limit|a bound of its own)|resource limit/ && !/no proof of /) print "the prover stopped before it knew"
            else if (file ~ /^(\.\/)?(src|specs)\//) print "the edited source says nothing"
            else if ($0 == "") print "what the error says was cut off"
            exit
        }
        { print "no fact is left open"; exit }'
}

# The judgement itself, on made-up lines: each file says in its name what it is.
for log in tests/edits/*.log; do
    said=$(judged "$(cat "$log")")
    case $log in
    tests/edits/fact-*) [ -z "$said" ] || { echo "edits: $log is taken for a misfit: $said"; exit 1; } ;;
    *) [ -n "$said" ] || { echo "edits: $log is taken for a false fact"; exit 1; } ;;
    esac
done

log=${1-}
if [ -z "$log" ]; then
    log=$(mktemp)
    trap 'rm -f "$log"' EXIT
    rt must-fail >"$log" 2>&1 || echo "edits: rt must-fail does not end well; it is judged what it said"
fi
bad=0
count=0
for edit in crates/*/must-fail/*.edit; do
    crate=${edit#crates/}
    name=${crate%%/*}/$(basename "$edit" .edit)
    line=$(grep -F "rt: must-fail $name.edit: " "$log" | tail -n 1) || line=
    if [ -z "$line" ]; then
        said="it has not been tried"
    elif [ "$edit" -nt "$log" ]; then
        said="it has changed since it was tried"
    else
        said=$(judged "$line")
    fi
    count=$((count + 1))
    [ -z "$said" ] || { echo "edits: $name shows nothing: $said"; bad=1; }
done
[ "$bad" -eq 0 ] || exit 1
echo "edits: each of $count was refused because a fact is false"

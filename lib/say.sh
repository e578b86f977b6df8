# Sourced. What every script of the front needs: messages, and an end that leaves nothing behind. $name is whose messages they are.
complain() { printf '%s: %s\n' "$name" "$*" >&2; }
fail() {
    complain "$@"
    exit 2
}

work= held=
clean() {
    [ -z "$work" ] || rm -rf "$work"
    [ -z "$held" ] || rm -rf "$held"
}
trap clean EXIT
trap 'exit 2' HUP INT TERM

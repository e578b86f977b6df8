# Sourced by the scripts beside it, from the root of the repository, with $name set to what they are called.
home=$PWD
. lib/build.sh

# whole_numbers USAGE ARGUMENT...: ends with words if one is no whole number
whole_numbers() {
    wn_usage=$1
    shift
    [ $# -le 2 ] || fail "usage: $wn_usage"
    for wn_given in "$@"; do
        case $wn_given in
        '' | *[!0-9]* | ??????????????????*) fail "'$wn_given' is no whole number; usage: $wn_usage" ;;
        esac
    done
}

# link_with ARCHIVE SOURCE PROGRAM: links a program of the independent package with a proved archive.
# rustc is called itself: cargo would not see that the archive had changed.
link_with() {
    find_archive "$1"
    (cd independent && cargo build --offline --release --quiet)
    CARGO_MANIFEST_DIR="$PWD/independent" rustc --edition 2021 -C opt-level=3 -C debug-assertions=on \
        -L dependency=independent/target/release/deps \
        --extern independent=independent/target/release/libindependent.rlib \
        -L native="$archives" -l static="$1" \
        -o "independent/target/release/$3" "$2"
}

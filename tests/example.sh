#!/bin/sh
# Builds the C example and compares what it prints: on its worked state, on the same state with a
# reserved operand for a heater, and on a cut file. The exit status is 1 on a difference.
# KUJAWIAN_ARCHIVES names a folder that already holds libkujawian.a; else it is proved and built.
set -eu
cd "$(dirname "$0")/.."
examples/build.sh
out=target/examples
status=0

# run NAME EXPECTED_STATUS: kettle on NAME.saved has to print NAME.expected.
run() {
    given=0
    "$out/kettle" "$out/$1.saved" > "$out/$1.given" || given=$?
    if [ "$given" -ne "$2" ] || ! diff "$out/$1.expected" "$out/$1.given"; then
        echo "DIFFERS: $1 (exit status $given, expected $2)"
        status=1
    fi
}

cp examples/kettle.expected "$out/worked.expected"
examples/unlist.sh < examples/kettle.listing > "$out/worked.saved"
[ "$(wc -c < "$out/worked.saved")" -eq 16464 ] || { echo "unlist.sh: not 16,464 bytes"; exit 1; }
run worked 0

# The reserved operand 8000 as zone 1's heater: what comes of it is 8004, the zone shows its code, its
# mask bit is clear, and the processor is disabled with VAER's types and registers V0, V2 and V3. What
# an exception leaves is marked as any other result.
sed 's/^V01\[01\] .*/V01[01] 0000000000008000/' examples/kettle.listing |
    examples/unlist.sh > "$out/fault.saved"
cat > "$out/fault.expected" <<'END'
zone   temperature   whole  boils
   0     33.125000      33  no
   1  reserved operand, code 4       0  no
   2    104.000000     104  yes
   3    107.062500     107  yes
   4      0.312500       0  no
   5     48.593750      49  no
wrote V0   000000000000003F
wrote V2   000000000000003F
wrote V3   000000000000003F
VLR        refused, number 3
VCR        refused, number 3
VMR<31:0>  refused, number 3
VMR<63:32> refused, number 3
VAER       000D0004
VPSR       00000080
END
run fault 0

# Cut inside record 700.
dd if="$out/worked.saved" of="$out/cut.saved" bs=11207 count=1 2> "$out/dd.log"
echo 'load: refused, number 10, beside it 700' > "$out/cut.expected"
run cut 1

# What cannot be read: the reason on standard error, and 2.
for unread in "$out/nosuch" "$out"; do
    given=0
    "$out/kettle" "$unread" >"$out/unread.given" 2>"$out/unread.said" || given=$?
    if [ "$given" -ne 2 ] || [ -s "$out/unread.given" ] || ! grep -qE '^kettle: .*: (No such file|Is a directory)' "$out/unread.said"; then
        echo "DIFFERS: kettle on $unread (exit status $given, expected 2) says: $(cat "$out/unread.said")"
        status=1
    fi
done

[ $status -eq 0 ] && echo SAME
exit $status

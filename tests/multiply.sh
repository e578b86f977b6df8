#!/bin/sh
# F multiply has no multiply wider than 32 bits (document 02, Q-4). Looks into the machine code of the F multiply that floating_c exports, kuj_f_multiply and
# kuj_f_multiply_all, and of every function that they call (tests/multiply.awk), and fails where it finds
#   mul or imul with operands of 64 bits, in a register or in memory;
#   a multiply whose product is wider than 32 bits: mul and imul of one operand, mulx, and pmuludq, pmuldq and pmullq in vector code;
#   a shift of 64 bits by a number that is worked out, which is a product by a power of two, and without 64-bit registers a library call as well;
#   a call of anything that is not in the archive, where a multiply could hide.
# First it is tried on machine code that it has to refuse, the body before Q-4 among it, and on some that it must not (tests/multiply).
# KUJAWIAN_ARCHIVES names a folder that already holds libfloating_c.a; else it is built.
set -eu
cd "$(dirname "$0")/.."
home=$PWD name=tests/multiply.sh
. lib/build.sh
find_archive floating_c
bad=0

for code in tests/multiply/*.txt; do
    said=$(awk -f tests/multiply.awk "$code")
    case $code in
    tests/multiply/narrow*) [ -z "$said" ] || { printf 'multiply: %s is refused, and has nothing wide:\n%s\n' "$code" "$said"; bad=1; } ;;
    *) [ -n "$said" ] || { echo "multiply: $code is not refused"; bad=1; } ;;
    esac
done

objdump -dr --no-show-raw-insn "$archives/libfloating_c.a" >target/multiply.txt
said=$(awk -f tests/multiply.awk target/multiply.txt)
[ -z "$said" ] || { printf 'multiply: F multiply is wider than 32 bits:\n%s\n' "$said"; bad=1; }
[ $bad -eq 0 ] || exit 1
echo "multiply: in F multiply's machine code no mul or imul with 64-bit operands, no product wider than 32 bits, no shift of 64 bits by a number that is worked out, and no call out of the archive; the body before Q-4 is refused"

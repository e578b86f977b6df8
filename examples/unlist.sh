#!/bin/sh
# Turns a listing, as the lister prints it, back into the saved file that it lists (docs/FORMATS.md).
#   examples/unlist.sh < LISTING > SAVED
# An element without a line is zero. Plain sh and awk, from the format alone: no part of the library.
set -eu
escapes=$(awk '
    function value(digit) { return index("0123456789ABCDEF", digit) - 1 }
    # The number as 16 hexadecimal digits, most significant first.
    function wide(digits) { while (length(digits) < 16) digits = "0" digits; return digits }
    function bytes(digits,  k) {
        for (k = 15; k > 0; k -= 2)
            printf "\\%03o", value(substr(digits, k, 1)) * 16 + value(substr(digits, k + 1, 1))
    }
    function put(record, digits, width) {
        if (length(digits) != width || digits !~ /^[0-9A-F]*$/)
            refuse()
        contents[record] = digits
    }
    function refuse() { bad = NR; exit 1 }
    NF != 2 { refuse() }
    $1 == "VLR" || $1 == "VCR" {
        if ($2 !~ /^[0-9]+$/)
            refuse()
        contents[$1 == "VLR" ? 1024 : 1026] = sprintf("%X", $2)
        next
    }
    $1 == "VMR" { put(1025, $2, 16); next }
    $1 == "VAER" { put(1027, $2, 8); next }
    $1 == "VPSR" { put(1028, $2, 8); next }
    $1 ~ /^V(0[0-9]|1[0-5])\[([0-5][0-9]|6[0-3])\]$/ {
        put(substr($1, 2, 2) * 64 + substr($1, 5, 2), $2, 16)
        next
    }
    { refuse() }
    END {
        if (bad) {
            print "unlist.sh: line " bad " is no line of a listing" > "/dev/stderr"
            exit 1
        }
        for (r = 0; r < 1029; r++) {
            bytes(wide(sprintf("%X", r)))
            bytes(wide(contents[r] ""))
        }
    }')
printf "$escapes"

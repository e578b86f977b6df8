# Reads objdump -dr of the archive and prints for each call the stack that it takes at most: its return address, every push, every
# subtraction from rsp, what it keeps below rsp, and the most that one of the functions it calls takes. What memset takes is not in it.
/^[0-9a-f]+ <.*>:$/ {
    f = substr($0, index($0, "<") + 1)
    sub(/>:$/, "", f)
    own[f] = 8
    next
}
$2 ~ /^push/ { own[f] += 8 }
$2 == "sub" && $3 ~ /,%rsp$/ {
    if ($3 !~ /^\$0x[0-9a-f]+,/) { print "stack: " f " takes an amount that cannot be read: " $3 > "/dev/stderr"; bad = 1 }
    else { n = $3; sub(/^\$0x/, "", n); sub(/,.*/, "", n); own[f] += hex(n) }
}
($2 == "and" || $2 == "lea" || $2 == "mov") && $3 ~ /,%rsp$/ { print "stack: " f " sets rsp: " $0 > "/dev/stderr"; bad = 1 }
match($0, /-0x[0-9a-f]+\(%rsp\)/) {
    n = hex(substr($0, RSTART + 3, RLENGTH - 9))
    if (n > below[f]) below[f] = n
}
$2 ~ /^call/ && $3 ~ /^\*/ { print "stack: " f " calls through a pointer" > "/dev/stderr"; bad = 1 }
/R_X86_64_PLT32/ {
    to = $NF
    sub(/^\.text\./, "", to)
    sub(/[-+]0x[0-9a-f]+$/, "", to)
    calls[f] = calls[f] " " to
}
function hex(digits,   k, n) {
    for (k = 1; k <= length(digits); k++) n = n * 16 + index("0123456789abcdef", substr(digits, k, 1)) - 1
    return n
}
function most(f, deep,   called, k, n, more, other) {
    if (deep > 50) { print "stack: " f " calls itself" > "/dev/stderr"; bad = 1; exit 1 }
    more = below[f]
    n = split(calls[f], called, " ")
    for (k = 1; k <= n; k++) if (called[k] in own) {
        other = most(called[k], deep + 1)
        if (other > more) more = other
    }
    return own[f] + more
}
END {
    if (bad) exit 1
    for (f in own) if (f ~ /^kuj_/) print f, most(f, 0)
}

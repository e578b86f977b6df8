# Reads objdump -dr --no-show-raw-insn and prints what is wide in the F multiply of floating_c, in kuj_f_multiply, kuj_f_multiply_all and every function
# that they call: a line for each instruction, with its function and what is wrong with it. Nothing where nothing is.
/^[0-9a-f]+ <.*>:$/ {
    f = substr($0, index($0, "<") + 1)
    sub(/>:$/, "", f)
    here[f] = 1
    next
}
$1 ~ /^[0-9a-f]+:$/ {
    n = split($3, operand, ",")
    # A comma within parentheses is an address's own.
    if ($3 ~ /\(/) { rest = $3; gsub(/\([^)]*\)/, "()", rest); n = split(rest, operand, ",") }
    wide = operand[n] ~ /^%r([abcd]x|[sd]i|[sb]p|[0-9]+)$/
    if ($2 ~ /^i?mulq?$/ && (wide || $2 ~ /q$/)) found("multiplies 64 bits")
    else if ($2 ~ /^i?mul[bwl]?$/ && n == 1) found("gives a product twice as wide as its operands")
    else if ($2 ~ /^mulx/) found("gives a product twice as wide as its operands")
    else if ($2 ~ /^v?pmul(u?dq|lq)$/) found("multiplies to 64 bits in each lane")
    else if ($2 ~ /^s([ah][lr]|h[lr]d)q?$/ && (wide || $2 ~ /q$/) && operand[1] == "%cl") found("shifts 64 bits by a number that is worked out")
    else if ($2 ~ /^s[ah][lr]x/ && wide) found("shifts 64 bits by a number that is worked out")
    else if ($2 ~ /^(call|jmp)q?$/ && $3 ~ /^\*/) found("goes where this cannot follow")
}
/R_X86_64_(PLT32|GOTPCREL|GOTPCRELX|REX_GOTPCRELX)/ {
    to = $NF
    sub(/^\.text\./, "", to)
    sub(/[-+]0x[0-9a-f]+$/, "", to)
    calls[f] = calls[f] " " to
}
function found(what) {
    wrong[f] = wrong[f] f ": " $2 " " $3 ": " what "\n"
}
function follow(f,   called, k, n) {
    if (f in seen) return
    seen[f] = 1
    if (!(f in here)) { print f ": called, and not here to be read"; return }
    printf "%s", wrong[f]
    n = split(calls[f], called, " ")
    for (k = 1; k <= n; k++) follow(called[k])
}
END {
    follow("kuj_f_multiply")
    follow("kuj_f_multiply_all")
}

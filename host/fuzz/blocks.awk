# The basic blocks of the library's functions, out of a disassembly of a program that they are linked into:
#
#     objdump -d --no-show-raw-insn PROGRAM | awk -v functions="book::check fitting_run ..." -f number.awk -f blocks.awk
#
# A block begins where a function does, at the target of a branch, after a conditional branch, and at the first
# instruction after a jump or a return that isn't padding: that is where a jump table leads. One line for each, in the
# order of the addresses: its distance from fitting_run in bytes, then function+offset.

BEGIN {
    count = split(functions, names, " ")
    for (i = 1; i <= count; i++) wanted[names[i]] = 1
}

# 0000000000401230 <book::check>:
/^[0-9a-f]+ <.*>:$/ {
    name = substr($2, 2, length($2) - 3)
    inside = name in wanted
    if (inside) {
        found++
        start = number($1)
        if (name == "fitting_run") base = start
        begins = 1
    }
    next
}

#   401237:	jne    401250 <book::check+0x20>
inside && $1 ~ /^[0-9a-f]+:$/ {
    at = number(substr($1, 1, length($1) - 1))
    mnemonic = $2
    padding = mnemonic ~ /^(nop|nopw|nopl|int3|data16|cs|xchg)$/
    label[at] = name "+" (at - start)
    if (begins && !padding) {
        block[at] = 1
        begins = 0
    }
    if (mnemonic ~ /^j/ && $3 ~ /^[0-9a-f]+$/) block[number($3)] = 1
    if (mnemonic ~ /^(j|ret)/) begins = 1
}

END {
    if (found != count) {
        print "blocks.awk: " found " of " count " functions are in the program" > "/dev/stderr"
        exit 1
    }
    for (at in block) {
        if (!(at in label)) {
            print "blocks.awk: a branch leads out of the functions" > "/dev/stderr"
            exit 1
        }
        print at - base, label[at] | "sort -n"
    }
}

# The blocks that a run under callgrind never reached: awk -f number.awk -f recount.awk CALLGRIND_OUT BLOCKS
#
# CALLGRIND_OUT has, under the name of each function, the addresses of the instructions that ran. A function begins with
# the lowest of them. BLOCKS is what blocks.awk prints; what is printed here are names of it.

# fn=search::pick_column'2    (the second on the stack)
FNR == NR && /^fn=/ {
    name = substr($0, 4)
    sub(/'.*/, "", name)
    next
}

FNR == NR && /^0x/ {
    at = number(substr($1, 3))
    ran[name, at] = 1
    if (!(name in start) || at < start[name]) start[name] = at
    next
}

FNR != NR {
    split($2, block, "+")
    if (!((block[1], start[block[1]] + block[2]) in ran)) print $2
}

# Every conditional branch of the library's functions, to be turned around in a copy of the program:
#
#     objdump -d -F PROGRAM | awk -v functions="book::check fitting_run ..." -f number.awk -f turned.awk
#
# A line for each: where in the file its condition stands, the byte that turns it (base eight), and function+offset.
# Conditions come in pairs that differ in the lowest bit: 74 is "if equal", 75 "if not equal"; after 0f it is 84 and 85.

BEGIN {
    FS = "\t"
    count = split(functions, names, " ")
    for (i = 1; i <= count; i++) wanted[names[i]] = 1
}

# 0000000000039290 <book::check> (File Offset: 0x39290):
/^[0-9a-f]+ <.*> \(File Offset: 0x[0-9a-f]+\):$/ {
    split($0, part, " ")
    name = substr(part[2], 2, length(part[2]) - 2)
    inside = name in wanted
    start = number(part[1])
    file = number(substr(part[5], 3, length(part[5]) - 4))
    next
}

#    392a5:	0f 87 c1 03 00 00    	ja     3966c <book::check+0x3dc> (File Offset: 0x3966c)
inside && $3 ~ /^j/ && $3 !~ /^jmp/ {
    at = number(substr($1, match($1, /[0-9a-f]/), length($1) - RSTART)) - start
    split($2, byte, " ")
    long = byte[1] == "0f"
    condition = number(byte[1 + long])
    turned = condition % 2 ? condition - 1 : condition + 1
    printf "%d %03o %s+%d\n", file + at + long, turned, name, at
}

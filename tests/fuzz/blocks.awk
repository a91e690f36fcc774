# From the output of `objdump -d --no-show-raw-insn`, the addresses at which
# basic blocks start: functions, targets of jumps and calls, and what follows a
# conditional jump. Only starts of instructions of the disassembly are given.

/^[0-9a-f]+ <.*>:$/ {
    sub(/^0+/, "", $1)
    start[$1] = 1
    after_branch = 0
    next
}

/^ *[0-9a-f]+:/ {
    address = $1
    sub(/:$/, "", address)
    instruction[address] = 1
    order[++count] = address
    if (after_branch)
        start[address] = 1
    after_branch = 0
    word = $2
    if (word ~ /^(notrack|bnd)$/) {
        word = $3
        operand = $4
    } else {
        operand = $3
    }
    if (word ~ /^(j|call|loop)/ && operand ~ /^[0-9a-f]+$/)
        start[operand] = 1
    if ((word ~ /^j/ && word !~ /^jmp/) || word ~ /^loop/)
        after_branch = 1
}

END {
    for (i = 1; i <= count; i++)
        if (order[i] in start)
            print order[i]
}

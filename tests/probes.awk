# Reads what `objdump -dr --no-show-raw-insn` prints and reports each stack probe whose register is read afterwards.
#
# A function with a large frame touches its pages one after the other. The compiler makes this loop when all else is decided:
#     mov %rsp,%r11; sub $SIZE,%r11; L: sub $0x1000,%rsp; movq $0x0,(%rsp); cmp %r11,%rsp; jne L
# Afterwards the register holds an address of the stack, which nothing in the source has asked for. So every way from the loop has to
# write the register before it reads it. A way on which it is read first reads what the loop has destroyed: that is the fault.
# Ways are followed over jumps. A call ends one, since the register is not kept over calls; so does a jump out of the function. The
# targets of a jump through a table are not known here: any instruction that begins a block may follow, but for the loop itself.
#
# Status 1 where something was found, where a probe has a form not known here, or where there was no probe at all to look at.

# The bits of the register that an operand names: 64, 32, 16 or 8; of several, the most; 0 for none.
function bits(text,    most, name, size) {
    most = 0
    while (match(text, /%[a-z0-9]+/)) {
        name = substr(text, RSTART + 1, RLENGTH - 1)
        text = substr(text, RSTART + RLENGTH)
        size = name == reg ? 64 : name == reg "d" ? 32 : name == reg "w" ? 16 : name == reg "b" ? 8 : 0
        if (size > most) most = size
    }
    return most
}

# Splits an instruction into what it reads (from) and what it only writes (into). What is not known to be a plain write counts as read.
function operands(i,    at, last, name) {
    from = args[i]
    into = ""
    at = match(from, /(^|,)%[a-z0-9]+$/)
    if (!at) return
    last = substr(from, at)
    sub(/^,/, "", last)
    name = op[i]
    if (from == last "," last && name ~ /^(xor|sub)/) {
        into = last
        from = ""
    } else if (name ~ /^(mov|lea|pop|set|lzcnt|tzcnt|cvt)/ || (name ~ /^imul/ && from ~ /^\$.*,.*,/)) {
        into = last
        from = at == 1 ? "" : substr(from, 1, at - 1)
    }
}

# Adds an instruction to those to look at, with so many low bits of the register written since the probe.
function visit(i, low) {
    if (i in op && !((i, low) in seen)) {
        seen[i, low] = 1
        todo[++most_todo] = i
        lows[most_todo] = low
    }
}

function jump(i, low,    k) {
    if (args[i] ~ /^\*/) {
        for (k in begins) if (k != loop) visit(k + 0, low)
    } else if (!(i in outside) && (target[i] in index_of)) {
        visit(index_of[target[i]], low)
    }
}

# Follows one instruction; gives 1 where it reads more of the register than was written.
function follow(i, low,    size) {
    operands(i)
    if (bits(from) > low) return 1
    size = bits(into)
    if (size >= 32 || op[i] ~ /^(call|ret|ud2|hlt)/) return 0
    if (size > low) low = size
    if (op[i] ~ /^j/) jump(i, low)
    if (op[i] !~ /^jmp/) visit(i + 1, low)
    return 0
}

function report(i, text) {
    printf "%s: %s: at %s: %s\n", file, name_of_function, address[i], text
    found = 1
}

# Looks at the probe whose loop ends with the jump at i.
function probe(i,    n) {
    reg = args[i - 1]
    probes++
    if (op[i] !~ /^jne/ || op[i - 1] !~ /^cmp/ || reg !~ /^%r[0-9]+,%rsp$/) {
        report(i, "a stack probe of a form that this check does not know")
        return
    }
    sub(/^%/, "", reg)
    sub(/,.*/, "", reg)
    delete seen
    most_todo = 0
    loop = index_of[target[i]]
    visit(i + 1, 0)
    for (n = 1; n <= most_todo; n++) {
        if (follow(todo[n], lows[n])) {
            report(todo[n], "reads " reg ", which the stack probe at " address[i] " has destroyed")
            return
        }
    }
}

function end_of_function(    i, k) {
    functions += count > 0
    for (i = 1; i <= count; i++) {
        if (op[i] ~ /^j/ && target[i] in index_of && !(i in outside)) begins[index_of[target[i]]] = 1
        if (op[i] ~ /^(j|ret|ud2|hlt)/) begins[i + 1] = 1
    }
    for (i = 1; i <= count; i++) {
        if (op[i] !~ /^j/ || i in outside || !(target[i] in index_of)) continue
        k = index_of[target[i]]
        if (k < i && op[k] ~ /^sub/ && args[k] ~ /^\$0x[0-9a-f]+,%rsp$/) probe(i)
    }
    delete op; delete args; delete address; delete target; delete index_of; delete outside; delete begins
    count = 0
}

/^In archive / { end_of_function(); archive = $3 " "; next }
/:     file format / { end_of_function(); file = archive $0; sub(/:     file format .*/, "", file); next }
/^[0-9a-f]+ <.*>:$/ {
    end_of_function()
    name_of_function = $0
    sub(/^[0-9a-f]+ </, "", name_of_function)
    sub(/>:$/, "", name_of_function)
    next
}
# a jump that the linker is to complete leaves the function
/^\t+[0-9a-f]+: R_X86_64_/ { if (op[count] ~ /^j/) outside[count] = 1; next }
/^ *[0-9a-f]+:\t/ {
    text = $0
    sub(/^[^\t]*\t/, "", text)
    sub(/ +#.*/, "", text)
    sub(/ +$/, "", text)
    while (sub(/^(rep|repz|repnz|lock|notrack|bnd|data16|cs|ds|es|addr32) +/, "", text)) {}
    count++
    address[count] = $1
    sub(/:$/, "", address[count])
    index_of[address[count]] = count
    op[count] = text
    sub(/ .*/, "", op[count])
    args[count] = text
    sub(/^[^ ]+ */, "", args[count])
    target[count] = args[count]
    sub(/ .*/, "", target[count])
}
END {
    end_of_function()
    if (counts) printf "%d functions, %d stack probes\n", functions, probes
    if (!probes) { print "no stack probe was seen: this check does not know their form"; found = 1 }
    exit found
}

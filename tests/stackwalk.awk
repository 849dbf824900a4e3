# The deepest stack of every function of an x86-64 object or archive, by a walk of its code: through each function along every jump, with the depth of the
# stack pointer at each instruction, and over the calls between functions. Reads `objdump -r OBJECT`, a line `code:`, and `objdump -drz --no-show-raw-insn OBJECT`.
# Prints "FUNCTION BYTES CHAIN.." a line: the bytes below the caller's stack pointer, the return address among them, and the functions that go so deep.
# Whatever the walk does not know for certain ends it with a message and status 1: a call or jump by a register or by memory (but a jump by a table of
# distances, which goes to every place of the table), a change of the stack pointer
# that is no constant (but the loop in which a large frame is taken piece by piece and touched), a depth that differs between two ways to an instruction, a way out with bytes left on the stack, code that no way leads to, recursion,
# and a call of a function that is neither here nor named by -v outside="NAME..". Of those named the return address alone is counted.
BEGIN {
    FS = "\t"
    WORD = 8 # a return address, or what a push takes
    # by the calling convention a function may use so many bytes below the stack pointer without moving it; none where it was compiled without
    RED_ZONE = red_zone == "" ? 128 : red_zone
    REGISTER = "^%r([abcd]x|[sd]i|bp|[0-9]+)$"
    for (k = split(outside, names, " "); k > 0; k--)
        is_outside[names[k]] = 1
}

function fail(text) {
    print "stackwalk: " text >"/dev/stderr"
    failed = 1
    exit 1
}

function fail_at(i, text) { fail(owner[i] ", " address[i] ": " opcode[i] " " operands[i] ": " text) }

# a number as objdump writes it: 1f8, 0x1f8, -0x40, or 0xffffffffffffff80 for -0x80
function number(text,    sign, value, k) {
    sign = sub(/^-/, "", text) ? -1 : 1
    sub(/^0x/, "", text)
    value = text ~ /^f/ && length(text) == 16 ? -4294967296 : 0
    for (k = length(text) == 16 ? 9 : 1; k <= length(text); k++)
        value += (index("0123456789abcdef", substr(text, k, 1)) - 1) * 16 ^ (length(text) - k)
    return sign * value
}

# the listing: members, sections, functions, instructions, and below an instruction the symbol that the linker puts into it

/file format/ { member++ }

# of tables of distances: the places that the linker puts into them
/^RELOCATION RECORDS FOR \[/ { table = substr($0, 25, length($0) - 26) }

/^[0-9a-f]+ R_X86_64_PC32 / && table ~ /^\.rodata/ {
    split($0, part, / +/)
    put[member, table, number(part[1])] = part[3]
}

/^code:$/ { member = 0 }

/^Disassembly of section/ {
    section = substr($0, 24, length($0) - 24)
}

/^[0-9a-f]+ <.*>:$/ {
    name = substr($0, 19, length($0) - 20)
    if (name in where)
        fail("two functions are named " name)
    functions[++many] = name
    where[name] = member SUBSEP section
    first[name] = count + 1
    begins[member, section, number(substr($0, 1, 16))] = name
}

/^ *[0-9a-f]+:\t/ {
    owner[++count] = name
    address[count] = $1
    gsub(/[ :]/, "", address[count])
    place[name, number(address[count])] = count
    sub(/^((data16|cs|repz?|repnz|lock|bnd|notrack) +)+/, "", $2)
    sub(/ *[#<].*$/, "", $2)
    opcode[count] = operands[count] = $2
    sub(/ .*$/, "", opcode[count])
    sub(/^[^ ]* */, "", operands[count])
}

/: R_X86_64_/ {
    linked[count] = $NF
    begun[member, symbol_of($NF), offset_of($NF)] = 1
}

# the symbol of a place, and how far behind it the place is; where code is filled in, the linker counts from the end of the four bytes that it fills
function symbol_of(text) {
    match(text, /[-+]0x[0-9a-f]+$/)
    return substr(text, 1, RSTART - 1)
}

function distance(text) {
    match(text, /[-+]0x[0-9a-f]+$/)
    text = substr(text, RSTART)
    sub(/^\+/, "", text)
    return number(text)
}

function offset_of(text) { return distance(text) + 4 }

# the function at whose beginning a call or jump arrives, "" where there is none
function arrival(i,    f, at, symbol) {
    f = owner[i]
    if (operands[i] ~ /\*/)
        fail_at(i, "where it leads is not known")
    if (!(i in linked))
        return begins[where[f], number(operands[i])]
    symbol = symbol_of(linked[i])
    at = offset_of(linked[i])
    if (at == 0 && (symbol in where || symbol in is_outside))
        return symbol
    return begins[substr(where[f], 1, index(where[f], SUBSEP) - 1), symbol, at]
}

# the bytes that an instruction takes from the stack, below 0 where it gives some back
function taken(i,    op, text, plain) {
    op = opcode[i]
    text = operands[i]
    if (op == "push" && (text ~ REGISTER || text ~ /^\$0x|\)$/))
        return WORD
    if (op == "pop" && text ~ REGISTER)
        return -WORD
    if (op ~ /^(sub|add)$/ && text ~ /^\$0x[0-9a-f]+,%rsp$/)
        return (op == "sub" ? 1 : -1) * number(substr(text, 2, index(text, ",") - 2))
    plain = text
    gsub(/\([^)]*\)/, "", plain)
    if (op == "mov")
        sub(/^%rsp,/, "", plain)
    if (plain ~ /%(rsp|esp|spl|sp)(,|$)/ || op !~ /^popcnt/ && op ~ /^(push|pop|enter|leave|iret|lret|lcall|ljmp|loop|int|sys|x(begin|abort|end))/)
        fail_at(i, "what it does to the stack pointer is not known")
    if (op ~ /[^a-z0-9]|^addr32$/ || text ~ / /)
        fail_at(i, "this is not understood")
    return 0
}

# whether another register gets an address in the stack, from which bytes below the stack pointer can be reached too
function copies_pointer(i) { return opcode[i] == "mov" && operands[i] ~ /^%rsp,/ || opcode[i] == "lea" && operands[i] ~ /\(%rsp/ }

# a way through function f comes to instruction i with so many bytes on the stack
function reach(f, i, bytes) {
    if (owner[i] != f)
        fail(f ": a way leads out of it, not to the beginning of a function")
    if (bytes < 0)
        fail_at(i, "more was given back than taken")
    if (i in depth && depth[i] != bytes)
        fail_at(i, depth[i] " bytes on the stack one way, " bytes " another")
    if (!(i in depth))
        waiting[++ways] = i
    depth[i] = bytes
    if (operands[i] ~ /-0x[0-9a-f]+\(%rsp/ || copies_pointer(i))
        bytes += RED_ZONE
    if (bytes > own[f])
        own[f] = bytes
}

# in function f another one is called, or jumped to in place of a return; its return address lies below so many bytes
function call(f, i, bytes,    other) {
    other = arrival(i)
    if (other == "")
        fail_at(i, "leads to no function here: " linked[i])
    callee[f, ++calls[f]] = other
    before[f, calls[f]] = bytes
}

# whether a jump leaves its function: for the beginning of another one, in place of a call and a return
function leaves(i,    other) {
    other = arrival(i)
    return i in linked || other != "" && other != owner[i]
}

# the instruction that gives a jump its register, before what only loads other registers
function jump_made(i, to,    at, other) {
    for (at = i - 1; opcode[at] == "mov"; at--) {
        other = operands[at]
        sub(/^.*,/, "", other)
        if (other !~ REGISTER || other == to)
            return at
    }
    return at
}

# a jump to what is found in a table of distances from its own beginning, by these four instructions and no others: every place of the table is reached
function jump_by_table(f, i,    base, to, made, lea, file, start, at, target) {
    to = substr(operands[i], 2)
    made = jump_made(i, to)
    lea = made - 2
    base = operands[lea]
    sub(/^.*,/, "", base)
    if (opcode[lea] != "lea" || !(lea in linked) || opcode[lea + 1] != "movslq" || operands[lea + 1] !~ "^[(]" base ",%r[a-z0-9]+,4[)]," to "$" ||
        opcode[made] != "add" || operands[made] != base "," to || base == to)
        fail_at(i, "where it leads is not known")
    file = substr(where[f], 1, index(where[f], SUBSEP) - 1)
    start = offset_of(linked[lea])
    tables[i] = lea
    for (at = start; (file, symbol_of(linked[lea]), at) in put && (at == start || !((file, symbol_of(linked[lea]), at) in begun)); at += 4) {
        target = put[file, symbol_of(linked[lea]), at]
        if (file SUBSEP symbol_of(target) != where[f])
            fail_at(i, "its table leads out of the function")
        reach(f, place[f, distance(target) - (at - start)], depth[i])
    }
    if (at == start)
        fail_at(i, "where it leads is not known")
}

# a way that comes into the middle of such a jump would bring another table
function refuse_entered(    i, k) {
    for (i in tables)
        for (k = tables[i] + 1; k <= i; k++)
            if (k in landed)
                fail_at(i, "where it leads is not known")
}

# whether a frame is taken here piece by piece, each touched before the next, by these six instructions and no others, of which i is the third; then `framed` is its size
function taken_in_pieces(f, i,    piece) {
    if (opcode[i - 2] != "mov" || operands[i - 2] != "%rsp,%r11" || opcode[i - 1] != "sub" || operands[i - 1] !~ /^\$0x[0-9a-f]+,%r11$/ ||
        opcode[i] != "sub" || operands[i] !~ /^\$0x[0-9a-f]+,%rsp$/ || opcode[i + 1] != "movq" || operands[i + 1] != "$0x0,(%rsp)" ||
        opcode[i + 2] != "cmp" || operands[i + 2] != "%r11,%rsp" || opcode[i + 3] != "jne" || place[f, number(operands[i + 3])] != i || owner[i - 2] != f)
        return 0
    piece = number(substr(operands[i], 2, index(operands[i], ",") - 2))
    framed = number(substr(operands[i - 1], 2, index(operands[i - 1], ",") - 2))
    return piece > 0 && framed > 0 && framed % piece == 0
}

# a way that comes into the middle of such a loop would take another size
function refuse_pieces_entered(    i, k) {
    for (i in pieces)
        for (k = i - 1; k <= i + 3; k++)
            if (k in landed)
                fail_at(i, "how much it takes is not known")
}

# one instruction further on every way from it
function step(f, i,    op, out, k) {
    op = opcode[i]
    if (op == "sub" && taken_in_pieces(f, i)) {
        pieces[i] = framed
        for (k = i + 1; k <= i + 3; k++)
            depth[k] = depth[i] + framed
        reach(f, i + 4, depth[i] + framed)
        return
    }
    if (op == "jmp" && operands[i] ~ /^\*%r[a-z0-9]+$/) {
        jump_by_table(f, i)
        return
    }
    out = op == "ret" || op ~ /^j/ && leaves(i)
    if (out && depth[i] != 0 || op == "ret" && operands[i] != "")
        fail_at(i, "leaves the function with " depth[i] " bytes on the stack")
    if (op == "call")
        call(f, i, WORD + depth[i])
    if (op ~ /^j/ && out)
        call(f, i, 0)
    if (op ~ /^j/ && !out) {
        landed[place[f, number(operands[i])]] = 1
        reach(f, place[f, number(operands[i])], depth[i])
    }
    if (op != "jmp" && op != "ret")
        reach(f, i + 1, depth[i] + (op ~ /^(call$|j)/ ? 0 : taken(i)))
}

# the deepest stack of a function, and in chain[f] the functions that make it so deep
function deepest(f,    k, bytes, most) {
    if (f in is_outside && !(f in where))
        return WORD
    if (f in active)
        fail(f " calls itself, through others or alone")
    if (f in result)
        return result[f]
    active[f] = 1
    most = WORD + own[f]
    chain[f] = f
    for (k = 1; k <= calls[f]; k++) {
        bytes = before[f, k] + deepest(callee[f, k])
        if (bytes > most)
            chain[f] = f " " (callee[f, k] in where ? chain[callee[f, k]] : callee[f, k])
        most = bytes > most ? bytes : most
    }
    delete active[f]
    return result[f] = most
}

function walk(f) {
    reach(f, first[f], 0)
    while (ways > 0)
        step(f, waiting[ways--])
}

# filling between functions is no code
function refuse_unreached(    i) {
    for (i = 1; i <= count; i++)
        if (!(i in depth) && opcode[i] !~ /^(nop[wl]?|xchg|int3)$/)
            fail_at(i, "no way leads here")
}

END {
    if (failed)
        exit 1
    for (k = 1; k <= many; k++)
        walk(functions[k])
    refuse_unreached()
    refuse_entered()
    refuse_pieces_entered()
    for (k = 1; k <= many; k++)
        print functions[k], deepest(functions[k]), chain[functions[k]]
}

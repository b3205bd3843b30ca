# Reads an LLVM module as text and prints, for each function that it exports, a C declaration of it as it stands in
# registers. Refuses what two calling conventions pass differently: a struct of more than 16 bytes, taken (byval) or
# given (by a pointer that comes first and is handed back), and whatever else is not of the types below. A record of 5
# bytes is i40, one of 7 i56: it has a register of 64 bits, or two of 32, to itself, and what stands above it there is
# not looked at.
BEGIN {
    takes["ptr"] = "const void *"; takes["i64"] = "uint64_t"; takes["i32"] = "uint32_t"; takes["i1"] = "bool"
    gives["i64"] = "uint64_t"; gives["i32"] = "uint32_t"
    takes["i40"] = gives["i40"] = takes["i56"] = gives["i56"] = "uint64_t"
    gives["{ i64, i64 }"] = gives["{ i64, i32 }"] = "Registers"
}

# The C type of one of the module's; none is refused.
function typed(types, type, does) {
    if (type in types) return types[type]
    print FILENAME ": " name " " does " " type ", and calling conventions differ in that" >"/dev/stderr"
    refused = 1
}

/^define / && !/^define (internal|private) / {
    match($0, /@[^(]*\(/)
    name = substr($0, RSTART + 1, RLENGTH - 2)
    given = substr($0, 8, RSTART - 9)
    taken = substr($0, RSTART + RLENGTH)
    sub(/\) #[0-9]+ \{$/, "", taken)
    sub(/^noundef /, "", given)
    given = typed(gives, given, "gives")
    count = split(taken, part, ", ")
    words = count ? "" : "void"
    for (k = 1; k <= count; k++) {
        sub(/( noundef)? %a[0-9]+$/, "", part[k])
        words = words (k > 1 ? ", " : "") typed(takes, part[k], "takes")
    }
    print "IN_REGISTERS " given " " name "_in_registers(" words ");"
    exported++
}

END {
    if (!exported) print FILENAME ": exports no function" >"/dev/stderr"
    exit refused || !exported
}

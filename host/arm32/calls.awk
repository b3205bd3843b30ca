# Writes the functions of a library as C calls them on 32-bit Arm: reads what its module exports (as exported.awk
# prints it), then the header, and prints for each such function, under the header's declaration, a call of the
# module's own. Refuses a function that the header does not declare.
NR == FNR {
    match($0, /charkhavo_[a-z_]*_in_registers/)
    exported[substr($0, RSTART, RLENGTH - length("_in_registers"))] = 1
    next
}
{ header = header $0 "\n" }

# Prints a declaration with its body. A record that is passed as such goes as the number that its bytes are.
function call(type, name, taken,    count, part, k, words, word) {
    count = taken == "void" ? 0 : split(taken, part, /, */)
    for (k = 1; k <= count; k++) {
        word = part[k]
        sub(/\[[A-Z_]*\]$/, "", word)
        match(word, /[A-Za-z_]+$/)
        word = substr(word, RSTART)
        if (part[k] ~ /^Charkhavo[A-Za-z]* [a-z_]+$/) word = "AS_NUMBER(" word ")"
        words = words (k > 1 ? ", " : "") word
    }
    print type " " name "(" taken ") {"
    print "    GIVE(" type ", " name "_in_registers(" words "));"
    print "}"
    delete exported[name]
}

END {
    gsub(/\/\*([^*]|\*+[^*\/])*\*+\//, "", header)
    gsub(/[ \n]+/, " ", header)
    count = split(header, statement, /;/)
    for (s = 1; s <= count; s++) {
        if (!match(statement[s], /[A-Za-z0-9_]+ charkhavo_[a-z_]+\(.*\)$/)) continue
        split(substr(statement[s], RSTART, RLENGTH - 1), part, /[ (]/)
        taken = substr(statement[s], RSTART + length(part[1] part[2]) + 2)
        sub(/\)$/, "", taken)
        if (part[2] in exported) call(part[1], part[2], taken)
    }
    for (name in exported) {
        print FILENAME ": does not declare " name >"/dev/stderr"
        refused = 1
    }
    exit refused
}

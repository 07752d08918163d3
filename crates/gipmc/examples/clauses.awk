# Reads an invariant of abc's pdr, and writes it as a certificate. A line of the invariant has the values of the latches in
# states that are not reached; so one of these values is another one in each state that is.
/^[-01]+ 1/ {
    latches = length($1)
    clause = ""
    for (latch = 1; latch <= latches; latch++) {
        value = substr($1, latch, 1)
        if (value != "-")
            clause = clause (value == "1" ? -latch : latch) " "
    }
    clauses[++count] = clause "0"
}

END {
    print "p cnf", latches, count
    for (row = 1; row <= count; row++)
        print clauses[row]
}

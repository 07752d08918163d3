# Reads the answer to the clauses of sudoku.awk, and writes the cells.
/^v/ {
    for (i = 2; i <= NF; i++)
        if ($i ~ /^[1-9]+$/)
            printf "%d%s", $i % 10, ++count % 9 ? "" : "\n"
}

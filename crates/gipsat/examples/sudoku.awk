# Reads a sudoku, nine lines of nine characters with a dot for an empty cell, and writes clauses that its solutions satisfy.
# The variable with the digits R, C and D says that the cell in row R and column C has the number D.
function says(row, column, number) {
    return 100 * row + 10 * column + number
}

function exclude(row, column, other_row, other_column, number) {
    print -says(row, column, number), -says(other_row, other_column, number), 0
}

BEGIN {
    for (row = 1; row <= 9; row++)
        for (column = 1; column <= 9; column++) {
            for (number = 1; number <= 9; number++)
                printf "%d ", says(row, column, number)
            print 0
            for (other = 1; other <= 9; other++)
                for (number = 1; number <= 9; number++) {
                    if (other > column)
                        exclude(row, column, row, other, number)
                    if (other > row)
                        exclude(row, column, other, column, number)
                    box_row = int((row - 1) / 3) * 3 + int((other - 1) / 3) + 1
                    box_column = int((column - 1) / 3) * 3 + (other - 1) % 3 + 1
                    if (box_row > row && box_column != column)
                        exclude(row, column, box_row, box_column, number)
                }
        }
}

{
    for (column = 1; column <= 9; column++)
        if (substr($0, column, 1) ~ /[1-9]/)
            print says(NR, column, substr($0, column, 1)), 0
}

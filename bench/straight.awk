# Writes straight-line encoding in C for p = 5, 11 and 31: no loop, and each index a constant. For each p there is one
# function that sets the data cells, column after column, and one that sets the parities. They are not inlined: in one
# function the compiler would keep elements from their cell to their lines, and spill nearly all of them.

function is_data(row, column) {
    return row < p - 1 && column != row + 1 && column != p - 1 - row
}

function cell(row, column) {
    return "cells[" column * (p - 1) + row "]"
}

function number_places(    row, column, place) {
    place = 0
    for (row = 0; row < p - 1; row++)
        for (column = 0; column < p; column++)
            if (is_data(row, column)) place_of[row, column] = place++
}

function set_data(    row, column) {
    for (column = 0; column < p; column++)
        for (row = 0; row < p - 1; row++)
            if (is_data(row, column)) print "    " cell(row, column) " = values[" place_of[row, column] "];"
}

# Sets the parity in this cell to the join of its line, which crosses column 0 in row `line`, and each column `step`
# rows after the one before.
function set_parity(row, column, line, step,    other, crossed, sum) {
    sum = ""
    for (other = 0; other < p; other++) {
        crossed = (line + step * other) % p
        if (is_data(crossed, other)) sum = sum (sum == "" ? "" : " ^ ") cell(crossed, other)
    }
    print "    " cell(row, column) " = " sum ";"
}

function set_parities(    i) {
    for (i = 0; i < p - 1; i++) set_parity(i, p, i, 0)
    for (i = 0; i < p - 1; i++) set_parity(i, i + 1, i, p - 1)
    for (i = 0; i < p - 1; i++) set_parity(i, p - 1 - i, i, 1)
}

BEGIN {
    count = split("5 11 31", primes)
    for (n = 1; n <= count; n++) {
        p = primes[n]
        number_places()
        print "static __attribute__((noinline)) void set_data_" p "(const uint64_t *values, uint64_t *cells) {"
        set_data()
        print "}\n\nstatic __attribute__((noinline)) void set_parities_" p "(uint64_t *cells) {"
        set_parities()
        print "}\n"
    }
}

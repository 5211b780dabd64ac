# The table of instructions: awk -f count.awk ROWS TRACE
#
# ROWS has one name per line. TRACE has one line per instruction, its function's name last, and four calls of mark() per row: around
# the library's call, and around that of the hand-written C. The row's own instructions do not count.

function thousands(number) {
    return number < 1000 ? number : sprintf("%d,%03d", int(number / 1000), number % 1000)
}

FNR == 1 { file++ }

file == 1 {
    name[++rows] = $0
    next
}

$NF == "mark" {
    if (inside)
        counted[++closed] = seen
    inside = !inside
    seen = 0
    next
}

inside && $NF !~ /^(_start|row_.*|expect|call)$/ { seen++ }

END {
    if (rows == 0 || closed != 2 * rows) {
        print rows + 0 " rows, " closed + 0 " calls" > "/dev/stderr"
        exit 1
    }
    print "| Call | Library | Hand-written C | Ratio |"
    print "|---|---|---|---|"
    for (row = 1; row <= rows; row++) {
        ours = counted[2 * row - 1]
        theirs = counted[2 * row]
        printf "| %s | %s | %s | %.2f |\n", name[row], thousands(ours), thousands(theirs), ours / theirs
    }
}

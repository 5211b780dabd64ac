# Puts the AArch64 figures into a header, or into the tables of docs/STACK.md: awk -f figures.awk FIGURES FILE
#
# FIGURES has one line "NAME FIGURE" per export. In a header the comment of a function begins with its name; in a table a row does.

FNR == 1 { file++ }

file == 1 {
    figure[$1] = $2
    next
}

match($0, /^ \* pbeam_[a-z_]+(:| \(0x)/) {
    about = $2
    sub(/:$/, "", about)
}

/^ \* Stack / && about in figure { sub(/AArch64 [0-9,]+/, "AArch64 " figure[about]) }

/^\| pbeam_/ {
    split($0, cell, " *[|] *")
    name = cell[2]
    sub(/,.*/, "", name)
    if (name in figure)
        $0 = "| " cell[2] " | " cell[3] " | " figure[name] " | " cell[5] " |"
}

{ print }

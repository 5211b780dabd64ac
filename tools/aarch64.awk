# Static stack of each export on AArch64: awk [-v out=FILE] -f aarch64.awk NAME.su NAME.s HEADER.h
#
# An export's bytes are its own frame (-fstack-usage), the deepest chain of calls below it, by the branches in the text that the object
# is assembled from, and the words that its caller passes on the stack: a parameter after the eighth is one. What memcpy, memmove and memset
# take is left out; the platform provides them.
#
# Prints the bytes of each export and the figure of the header. Fails if the header has none, less, or more than 32 bytes more, if an
# export takes more than 1 KiB, and if there is no known bound: a frame of variable size, a call through a register, recursion, a function
# without a frame. With `out` the header is not compared; FILE gets a line "NAME FIGURE" an export, rounded up to a multiple of 32.

function wrong(text) {
    print "stack: " text
    failed = 1
}

# The most bytes below and with this function.
function depth(name, called, at, n, most, below) {
    if (name in known)
        return known[name]
    if (name in open) {
        wrong(name " calls itself")
        return 0
    }
    if (!(name in frame)) {
        wrong("no frame is known of " name)
        return 0
    }
    open[name] = 1
    n = split(calls[name], called, "\n")
    for (at = 1; at <= n; at++) {
        below = called[at] == "" ? 0 : depth(called[at])
        most = below > most ? below : most
    }
    delete open[name]
    known[name] = frame[name] + most
    return known[name]
}

FNR == 1 { file++ }

# NAME.su: file:function, bytes, kind.
file == 1 {
    split($0, part, "\t")
    name = part[1]
    sub(/^[^:]*:/, "", name)
    frame[name] = part[2]
    if (part[3] != "static")
        wrong(name " has a frame of kind " part[3])
}

# NAME.s: labels that start a function, and the branches in it that leave it.
# The function that carries the version in its name is for the linker: the header has no figure of it.
file == 2 && $1 == ".globl" && $2 !~ /_version_[0-9]+_[0-9]+_[0-9]+$/ { export[$2] = 1 }
file == 2 && /^("[^"]*"|[A-Za-z_][A-Za-z0-9_.]*):/ {
    inside = $0
    match(inside, /^("[^"]*"|[^:]*)/)
    inside = substr(inside, 1, RLENGTH)
    gsub(/"/, "", inside)
}
file == 2 && /\.LJTI/ { table[inside] = 1 }
file == 2 && ($1 == "blr" || ($1 == "br" && !(inside in table))) { wrong(inside " goes where a register points: " $0) }
file == 2 && ($1 == "bl" || $1 == "b") && $2 !~ /^\.L/ {
    callee = $2
    gsub(/"/, "", callee)
    if (callee !~ /^(memcpy|memmove|memset)$/)
        calls[inside] = calls[inside] callee "\n"
}

# The header: the comment of a function begins with its name, its prototype with a type at the start of a line.
file == 3 && /^[a-z]/ && !/^static inline/ && match($0, /pbeam_[a-z_]+\(/) {
    inside = substr($0, RSTART, RLENGTH - 1)
    commas[inside] = 0
}
file == 3 && inside in commas { commas[inside] += gsub(/,/, ",") }
file == 3 && /;/ { inside = "" }
file == 3 && match($0, /^ \* pbeam_[a-z_]+(:| \(0x)/) {
    about = $2
    sub(/:$/, "", about)
}
file == 3 && /^ \* Stack / && match($0, /AArch64 [0-9,]+/) {
    number = substr($0, RSTART + 8, RLENGTH - 8)
    gsub(/,/, "", number)
    allowed[about] = number
}

END {
    for (name in export) {
        bytes = depth(name) + (commas[name] > 7 ? 8 * (commas[name] - 7) : 0)
        if (bytes > 1024)
            wrong(name " takes more than 1 KiB: " bytes)
        if (out != "") {
            print name, int((bytes + 31) / 32) * 32 > out
            continue
        }
        line = sprintf("%-28s %6d bytes of stack, %s in the header", name, bytes, name in allowed ? allowed[name] : "none")
        print line | "sort"
        if (!(name in allowed) || bytes > allowed[name] + 0 || allowed[name] + 0 > bytes + 32)
            other = other " " name
    }
    if (out == "")
        close("sort")
    if (other != "")
        wrong("the header's column AArch64 is not that of (tools/aarch64 figures writes it):" other)
    exit failed
}

# Which parameters a header marks, or which arguments a test passes wrongly: a line 'FUNCTION NUMBER' for each, counted from 1.
#
#   awk -v word=REGEX -f tests/c/parameters.awk FILE    each parameter or argument that contains REGEX
#   awk -v nonnull=1 -f tests/c/parameters.awk FILE     the numbers of each PBEAM_NONNULL(..)
#   -v lines=1      each line is a statement, and its number comes first; otherwise a statement ends at a semicolon or a brace
#   -v declared=1   only declarations, not calls in the bodies of inline functions
#
# FILE is C without comments. The function of a statement is the first name pbeam_.. with a parenthesis after it.
BEGIN { RS = lines ? "\n" : "[;{}]" }

function found(name, number) { print (lines ? NR " " : "") name " " number }

{
    gsub(/[ \t\n]+/, " ")
    if (!match($0, /pbeam_[a-z0-9_]+\(/))
        next
    name = substr($0, RSTART, RLENGTH - 1)
    before = substr($0, 1, RSTART - 1)
    rest = substr($0, RSTART + RLENGTH)
    if (declared && (before !~ /[a-z0-9_] \*?$/ || before ~ /return $/))
        next
    if (nonnull) {
        if (match(before, /PBEAM_NONNULL\([^)]*\)/)) {
            list = substr(before, RSTART, RLENGTH)
            gsub(/[^0-9,]/, "", list)
            count = split(list, numbers, ",")
            for (i = 1; i <= count; i++)
                found(name, numbers[i])
        }
        next
    }
    depth = 1
    number = 1
    part = ""
    for (i = 1; depth > 0 && i <= length(rest); i++) {
        c = substr(rest, i, 1)
        depth += (c == "(") - (c == ")")
        if (depth == 0 || (depth == 1 && c == ",")) {
            if (part ~ word)
                found(name, number)
            number++
            part = ""
        } else {
            part = part c
        }
    }
}

# Holds the table of docs/RFC3629.md against the text check. The first file is that page; the others are the code and the definition.
# A quotation must stand in the file that heads its column. The numbers of the RFC's ranges in the left cell must be those of the other two.
# The code's file must have each number of a range just as often as its column, and no other file of the code may have one. Comments,
# contracts and numbers up to 3, which count bytes, do not count.

function wrong(what) {
    print "docs/RFC3629.md: " what
    bad = 1
}

# the value of a number as it is written, decimal or hexadecimal
function value(word, n, i) {
    gsub(/_/, "", word)
    if (word !~ /^0x/)
        return word + 0
    for (i = 3; i <= length(word); i++)
        n = 16 * n + index("0123456789abcdef", tolower(substr(word, i, 1))) - 1
    return n
}

# the values of all that matches a pattern in a text, a blank before each; of a match the first `skip` characters give way to `prefix`
function numbers(text, pattern, skip, prefix, found) {
    while (match(text, pattern)) {
        found = found " " value(prefix substr(text, RSTART + skip, RLENGTH - skip))
        text = substr(text, RSTART + RLENGTH)
    }
    return found
}

FNR == 1 { page = NR == 1 }

page && /^\|/ {
    n = split($0, cell, "|")
    rows++
    if (rows == 1)
        for (i = 3; i <= 4; i++) {
            split(cell[i], part, "`")
            column[i] = part[2]
        }
    if (rows <= 3)
        next # the head, and what names things that stand elsewhere
    left = cell[2]
    gsub(/%x/, "-", left)
    left = numbers(left, "-[0-9A-F][0-9A-F]", 1, "0x")
    for (i = 3; i <= 4; i++) {
        m = split(cell[i], part, "`")
        said = ""
        for (k = 2; k <= m; k += 2) {
            quoted[++quotations] = part[k]
            where[quotations] = column[i]
            said = said numbers(part[k], "0x[0-9a-fA-F]+", 0, "")
        }
        if (said != left)
            wrong("line " FNR ": the RFC has" left ", the column of " column[i] said)
        if (i == 3) {
            m = split(said, part, " ")
            for (k = 1; k <= m; k++)
                wanted[part[k]]++
        }
    }
}

!page {
    text[FILENAME] = text[FILENAME] "\n" $0
    code = $0
    sub(/\/\/.*/, "", code)
    if (FILENAME ~ /\.rt$/ && code !~ /^ghost|^ *(ensures|requires) /) {
        gsub(/[^0-9A-Za-z_]u(8|64)/, " ", code) # types
        m = split(numbers(code, "(0x[0-9a-fA-F_]+|[0-9][0-9_]*)", 0, ""), part, " ")
        for (k = 1; k <= m; k++)
            if (FILENAME == column[3])
                seen[part[k]]++
            else
                elsewhere[FILENAME " " part[k]]
    }
}

END {
    if (rows < 14)
        wrong("its table was not found")
    for (i = 1; i <= quotations; i++)
        if (!index(text[where[i]], quoted[i]))
            wrong("`" quoted[i] "` does not stand in " where[i])
    for (n in wanted) {
        if (n + 0 > 3 && wanted[n] != seen[n] + 0)
            wrong(n " stands " seen[n] + 0 " times in " column[3] ", and " wanted[n] " times in its column")
        for (file in elsewhere)
            if (n + 0 > 3 && file ~ (" " n "$"))
                wrong(n ", a number of a range, stands in " file)
    }
    for (n in seen)
        if (n + 0 > 3 && !(n in wanted))
            wrong(n " stands in " column[3] " and in no range of the table")
    exit bad
}

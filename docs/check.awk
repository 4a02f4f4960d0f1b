# Holds the documents against what is there; docs/check hands both in. The first file is the list of what is there.

function wrong(what) {
    print FILENAME ":" FNR ": " what
    bad++
}

# the anchor of a heading, as GitHub makes it
function anchor(heading) {
    sub(/^#+ /, "", heading)
    heading = tolower(heading)
    gsub(/[^a-z0-9 _-]/, "", heading)
    gsub(/ /, "-", heading)
    return heading
}

# whether a path is there: from the top, below crates/, or by its last part alone; NAME and * stand for anything
function there(path, p, pattern) {
    sub(/^\.\//, "", path)
    sub(/\/$/, "", path)
    if (path in file || ("crates/" path) in file || path in base)
        return 1
    if (path !~ /NAME|\*/)
        return 0
    pattern = path
    gsub(/\./, "\\.", pattern)
    gsub(/NAME|\*/, "[^/]*", pattern)
    pattern = "(^|/)" pattern "$"
    for (p in file)
        if (p ~ pattern)
            return 1
    return 0
}

# ---- one name in backticks; `joined` says that it goes on a list whose last member told a crate and a file

# CRATE::NAME or Type::NAME, with modules and types between
function called(name, part, n, i) {
    n = split(name, part, "::")
    if (part[1] in crate) {
        from = part[1]
        how = "src"
        for (i = 2; i <= n; i++)
            if (!((from, part[i]) in owns))
                return 0
        return 1
    }
    for (i = 1; i <= n; i++)
        if (how == "src" && from != "" ? !((from, part[i]) in owns) : !(part[i] in declared))
            return 0
    return 1
}

# CRATE/File.name, CRATE/File or CRATE/label
function placed(name, slash, rest, dot) {
    slash = index(name, "/")
    from = substr(name, 1, slash - 1)
    rest = substr(name, slash + 1)
    if (rest ~ /^[A-Z]/) {
        dot = index(rest, ".")
        within = dot ? substr(rest, 1, dot - 1) : rest
        how = "file"
        return dot ? (from, within, substr(rest, dot + 1)) in has : (from, within) in hasFile
    }
    how = "edit"
    return (from, rest) in edit
}

# File.name of any crate; many crates have an Inner, and that is the one of the section's crate
function spelled(name, dot, c) {
    dot = index(name, ".")
    within = substr(name, 1, dot - 1)
    from = within == "Inner" ? section : ""
    how = "file"
    if (from != "")
        return (from, within, substr(name, dot + 1)) in has
    return (within, substr(name, dot + 1)) in anywhere
}

# a name alone: on a list it belongs where the list does, else it has to be declared somewhere
function alone(name, joined) {
    if (joined && how == "file")
        return from == "" ? (within, name) in anywhere : (from, within, name) in has
    if (joined && how == "edit")
        return (from, name) in edit
    if (joined && how == "src")
        return (from, name) in owns
    how = "" # no list that it goes on
    if (name in crate || name in declared || name in label || name in base)
        return 1
    return name !~ /[-_]|[a-z][A-Z]/ && name in word
}

function good(name, joined) {
    if (name ~ /^[0-9a-f][0-9a-f]( [0-9a-f][0-9a-f])*$/ || name !~ /[A-Za-z]/)
        return 1 # bytes, numbers
    if (name ~ /^returns(-.*)?$/)
        return 1 # a way out of a function, as the prover names them
    if (name ~ /^([-&]|\.[a-z]|lib\.|Rattle\.std\.|__[a-z]|rattle_)/ || name ~ /=/ || name ~ /^(crate\/)?File\.name$/)
        return 1 # options, types, the kit's own, what a run prints, how a name is written
    if (name ~ /^[A-Za-z_:]+(<[^>]*>)?\(/)
        sub(/[<(].*/, "", name) # a function and its parameters
    else if (name ~ / /) {
        if (name !~ /^(\.?\/?[A-Za-z_]+\/|[A-Z][A-Za-z]*\.[A-Za-z]|[A-Z][A-Za-z]* \{)/)
            return 1 # a formula or a command
        sub(/ .*/, "", name)
    }
    if (name ~ /::/)
        return called(name)
    if (name ~ /^target\//)
        return 1 # made by a run
    if (name ~ /^[a-z_0-9]+\/([A-Za-z][A-Za-z]*(\.[^.\/]*)?|[a-z_0-9]*)$/ && name !~ /\.(antt|rt|md|rs|h|c|txt)$/ && substr(name, 1, index(name, "/") - 1) in crate)
        return placed(name)
    if (name ~ /\// || name ~ /\.(antt|rt|md|rs|h|c|txt)$/)
        return there(name)
    if (name ~ /^[A-Z][A-Za-z]*\.[^.]+$/)
        return spelled(name)
    return alone(name, joined)
}

# ---- a line of text: its names; the text between two of them says whether they go on a list

function names(text, n, i, part, between) {
    n = split(text, part, "`")
    if (n && n % 2 == 0) {
        wrong("a backtick without its other one")
        return
    }
    if (FILENAME ~ /LANDINGS|PORT|DESIGN-PASS|^bench|^tests/)
        return # LANDINGS, PORT and DESIGN-PASS name what is gone, too, and these name parts of other programs
    for (i = 2; i <= n; i += 2) {
        between = part[i - 1]
        parentheses(between)
        named++
        cited[FILENAME, section, part[i]]
        cited[FILENAME, section, bare(part[i])]
        if (!good(part[i], i > 2 && how != "" && between ~ /^([^()]*\))?(, | and | or |, and )$/))
            wrong("`" part[i] "` is not there")
    }
}

# the name of a function without its module and its parameters
function bare(name) {
    sub(/[<(].*/, "", name)
    sub(/.*::/, "", name)
    return name
}

# what stands in parentheses has lists of its own
function parentheses(text, before, opened, closed) {
    before = inside
    opened = gsub(/\(/, "", text)
    closed = gsub(/\)/, "", text)
    inside += opened - closed
    if (inside < 0)
        inside = 0
    if (!before && inside) {
        outer_from = from
        outer_within = within
        outer_how = how
        how = ""
    } else if (before && !inside) {
        from = outer_from
        within = outer_within
        how = outer_how
    } else if (inside && opened)
        how = ""
}

function links(text, target) {
    while (match(text, /\]\([^)]*\)/)) {
        target = substr(text, RSTART + 2, RLENGTH - 3)
        text = substr(text, RSTART + RLENGTH)
        if (target !~ /^[a-z]+:/)
            linked[FILENAME "\t" FNR "\t" target]
    }
}

function cells(n, i, cell) {
    gsub(/\\\|/, "")
    n = split($0, cell, "|")
    if (!table) { # the heading of a table
        for (i = 2; i < n; i++)
            column[i] = cell[i]
        table = n
        rows = 0
        return
    }
    rows++
    if (n != table)
        wrong("a row of " (n - 2) " cells in a table of " (table - 2))
    if (rows == 1)
        return # the line below it
    for (i = 2; i < n; i++) {
        how = ""
        inside = 0
        gsub(/^ +| +$/, "", cell[i])
        if (FILENAME ~ /PROMISES/ && column[i] ~ /Edit/) {
            from = section
            how = "edit"
            edits(cell[i])
        } else if (FILENAME ~ /TRACE/ && column[i] ~ /The paper/)
            continue # its own words
        else if (FILENAME ~ /TRACE/ && column[i] ~ /Must-fail|Run/ && cell[i] ~ /^`[a-z_]+`/ && !(word1(cell[i]) in crate))
            wrong("`" word1(cell[i]) "` is no crate")
        else
            names(cell[i])
    }
    if (FILENAME ~ /README/ && column[2] ~ /Crate/)
        crates(cell[2], cell[4])
}

function word1(text, part) {
    split(text, part, "`")
    return part[2]
}

function edits(text, n, i, part) {
    n = split(text, part, "`")
    for (i = 2; i <= n; i += 2) {
        named++
        cited[FILENAME, section, part[i]]
        if (!((section, part[i]) in edit))
            wrong("`" part[i] "` is no edit of " section)
    }
}

# a row of README's table of crates: what it stands on is in crates.txt
function crates(who, over, n, i, part, m, j, below) {
    n = split(who, part, "`")
    m = split(over, below, "`")
    for (i = 2; i <= n; i += 2) {
        listed[part[i]]
        if (!(part[i] in crate))
            wrong("`" part[i] "` is no crate")
        for (j = 2; j <= m; j += 2)
            if (!((part[i], below[j]) in over_it))
                wrong("`" part[i] "` does not stand on `" below[j] "` in crates.txt")
    }
}

# whether PROMISES names what a crate has in the section of the crate, or among the exceptions
function promised(what, which, part) {
    split(which, part, SUBSEP)
    if (!(("docs/PROMISES.md", (part[1] in has_section) ? part[1] : "Exceptions", part[2]) in cited)) {
        print "docs/PROMISES.md: the " what " `" part[2] "` of " part[1] " is not named with its crate"
        bad++
    }
}

# ---- what is there

FNR == NR {
    if ($1 == "crate") {
        crate[$2]
        for (i = 3; i <= NF; i++)
            over_it[$2, $i]
    } else if ($1 == "file") {
        file[$2]
        n = split($2, part, "/")
        base[part[n]]
        if (part[n] ~ /\.antt$/) {
            sub(/\.antt$/, "", part[n])
            hasFile[part[2], part[n]]
            declared[part[n]]
        }
    } else if ($1 == "public") {
        public[$2, $3]
    } else if ($1 == "edit") {
        edit[$2, $3]
        label[$3]
    } else if ($1 == "name") {
        owns[$2, $4]
        has[$2, $3, $4]
        anywhere[$3, $4]
        declared[$4]
    } else
        word[$2]
    next
}

# ---- the documents

FNR == 1 {
    section = ""
    fence = table = 0
    blank = 1
}

/^```/ { fence = !fence; next }
fence { next }
/^    / && (blank || code) { code = 1; blank = 0; next }
{ code = 0 }
/^$/ { blank = 1; table = 0; next }
/^\|/ { cells(); links($0); blank = 0; next }

{
    blank = table = 0
    how = ""
    inside = 0
    width = $0
    gsub(/[\200-\277]/, "", width) # a character of several bytes counts once
    if (length(width) > 120)
        wrong(length(width) " columns")
    if (/^#/) {
        anchors[FILENAME, anchor($0)]
        if (FILENAME ~ /PROMISES/ && match($0, /^##+ [a-z_0-9]+:/)) {
            section = substr($0, RSTART, RLENGTH - 1)
            sub(/^#+ /, "", section)
            has_section[section]
            if (!(section in crate))
                wrong(section " is no crate")
        } else if (/^## /)
            section = substr($0, 4)
    }
    names($0)
    links($0)
    if (FILENAME ~ /TRUST/ && match($0, /counts them: [0-9]+ lines/)) {
        counted = 1
        if (substr($0, RSTART + 13, RLENGTH - 19) + 0 != believe)
            wrong("docs/believe counts " believe " lines")
    }
}

END {
    for (l in linked) {
        split(l, part, "\t")
        folder = part[1]
        if (!sub(/\/[^\/]*$/, "/", folder))
            folder = ""
        hash = index(part[3], "#")
        to = hash ? substr(part[3], 1, hash - 1) : part[3]
        path = to == "" ? part[1] : folder to
        while (sub(/[^\/]*\/\.\.\//, "", path))
            ;
        if (!(path in file)) {
            print part[1] ":" part[2] ": the link leads to no file: " part[3]
            bad++
        } else if (hash && !((path, substr(part[3], hash + 1)) in anchors)) {
            print part[1] ":" part[2] ": the link leads to no heading: " part[3]
            bad++
        }
    }
    for (c in crate) {
        if (!(c in listed)) {
            print "README.md: the table of crates has no `" c "`"
            bad++
        }
        if (!(("docs/TRUST.md", "Axioms", c) in cited)) {
            print "docs/TRUST.md: the table of axioms has no `" c "`"
            bad++
        }
    }
    for (e in edit)
        promised("edit", e)
    for (p in public)
        promised("function", p)
    for (f in file)
        if (f ~ /^crates\/[^\/]*\/specs\/.*\.antt$/ && f !~ /\/(Lib|Inner)\.antt$/) {
            sub(/^crates\//, "", f)
            if (!(("docs/TRUST.md", "The definitions", f) in cited)) {
                print "docs/TRUST.md: the table of definitions has no `" f "`"
                bad++
            }
        }
    if (!counted) {
        print "docs/TRUST.md: nothing says what docs/believe counts"
        bad++
    }
    if (bad)
        exit 1
    print "docs: " named " names are there"
}

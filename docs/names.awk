# The names that the files of the crates declare: 'name CRATE FILE NAME' for each, and 'public CRATE NAME' for each function that a crate
# shows the others. Used by docs/check.
function tell(name) { print "name " crate " " file " " name }

FNR == 1 {
    split(FILENAME, part, "/")
    crate = part[2]
    file = FILENAME
    sub(/.*\//, "", file)
    rattle = file ~ /\.rt$/
    sub(/\.[a-z]*$/, "", file)
}

# code: functions, types, constants, and everything that has a type (fields, parameters) or is a variant
rattle {
    line = $0
    while (match(line, /(fn|struct|enum|const|mod) [A-Za-z_][A-Za-z0-9_]*/)) {
        name = substr(line, RSTART, RLENGTH)
        sub(/^[a-z]+ /, "", name)
        tell(name)
        line = substr(line, RSTART + RLENGTH)
    }
    if (/^pub use .*::/) {
        list = $0
        sub(/.*::/, "", list)
        gsub(/[{};,]/, " ", list)
        n = split(list, word, " ")
        for (i = 1; i <= n; i++) {
            tell(word[i])
            if (file == "lib" && word[i] ~ /^[a-z]/)
                print "public " crate " " word[i]
        }
    }
    if (file == "lib" && match($0, /^pub mod [a-z_]+;/))
        open[crate, substr($0, 9, RLENGTH - 9)]
    if (match($0, /^pub (extern "C" )?fn [a-z_0-9]+/)) {
        name = substr($0, 1, RLENGTH)
        sub(/.* /, "", name)
        shown[crate, file, name]
    }
    if (/^use std::/ || /HostRuntime/) { # what the kit lends
        list = $0
        sub(/.*::/, "", list)
        gsub(/[{};,]/, " ", list)
        n = split(/^use/ ? list : "HostRuntime", word, " ")
        for (i = 1; i <= n; i++)
            print "name kit kit " word[i]
    }
    line = $0
    while (match(line, /[A-Za-z_][A-Za-z0-9_]*:/)) {
        tell(substr(line, RSTART, RLENGTH - 1))
        line = substr(line, RSTART + RLENGTH)
    }
    if ($0 ~ /^ +[A-Z][A-Za-z0-9]*( \{.*|,)$/) {
        name = $1
        sub(/,$/, "", name)
        tell(name)
    }
    next
}

# what the kit lends
/^use (Prim|mathlib|native|lib|borrow|denote|mir|Rattle\.(core|io|std[a-z_]*))\./ {
    list = $0
    if (sub(/.*\{/, "", list) && sub(/\}.*/, "", list)) {
        n = split(list, word, /, /)
        for (i = 1; i <= n; i++)
            print "name kit kit " word[i]
    }
    next
}

# definitions and laws: the words before a colon, an equals sign or a parameter, behind words like pub
{
    line = $0
    sub(/^[ \t]+/, "", line)
    while (line ~ /^(pub|abbrev|unfoldable|opaque|record|data|ruleset|private) /)
        sub(/^[a-z]+ /, "", line)
    if (match(line, /^[^ (){}:;,=]+( [^ (){}:;,=]+)*( :| =| where| \()/)) {
        n = split(substr(line, 1, RLENGTH), word, " ")
        tell(word[1])
        if (line ~ /^[^(){}:;,=]+ : /)
            for (i = 2; i < n; i++)
                tell(word[i])
    }
}

END {
    for (f in shown) {
        split(f, part, SUBSEP)
        if (part[2] == "lib" || (part[1], part[2]) in open)
            print "public " part[1] " " part[3]
    }
}

# The second half of tools/promises: reads what the crates have, a line each, then docs/PROMISES.md, and looks up every name in backticks there.

# the only words in backticks that are no names: Rattle's own, which the page speaks of
BEGIN { split("ensures requires", words); for (i in words) language[words[i]] }

function fail(at, what) { print "promises: " (at ? page ":" at ": " : "") what; bad = 1 }

# ---- what the crates have
FNR == NR && $1 == "crate" { crates[$2]; next }
FNR == NR && $1 == "path" { paths[$2]; next }
FNR == NR {
    have[$1, $2, $3]; where[$1, $3] = where[$1, $3] " " $2
    if ($1 == "edit") { edits[$2 " " $3]; edit_count++ }
    # conversions from two types have one name: each must be an equation, and none may require anything
    if ($1 == "code" && $5 != "" && !(($2 " " $3) in contracts && !contracts[$2 " " $3])) { contracts[$2 " " $3] = $5 }
    if ($1 == "code" && $4 == "pub" && ($2 == "vessel" || $2 == "climboat")) { calls[$2 " " $3] += $6; call_count++ }
    next
}

# ---- the page, line by line
FNR == 1 { page = FILENAME }
/^#/ { heading($0); excepted = $0 == "## Exceptions"; columns = 0; next }
!/^\|/ { columns = 0; row = ""; files = ""; cell($0, "words"); next }
!columns { columns = split($0, column, / *\| */); next }
/^\|[-|]*$/ { next }
{ table_row($0) }

# the crates of a heading are those of what stands under it; one without crates below such a heading keeps them
function heading(text,    n, part, i) {
    n = split(text, part, "`")
    if (n > 1 || text ~ /^##? /) section = ""
    for (i = 2; i <= n; i += 2) {
        if (!(part[i] in crates)) fail(FNR, "`" part[i] "` is no crate")
        section = section " " part[i]
    }
}

# the crates and the files of a row are those that its functions and its files begin with
function table_row(text,    n, part, i, kind) {
    n = split(text, part, / *\| */)
    row = ""; files = ""
    for (i = 2; i < n; i++) {
        if (column[i] ~ /^(function|call|file)$/) begins(part[i])
    }
    for (i = 2; i < n; i++) {
        kind = column[i] ~ /^(function|call)$/ ? "code" : column[i] ~ /^(definition|theorem)$/ ? column[i] : "words"
        cell(part[i], kind)
    }
}

function begins(text,    n, name, i, first) {
    n = split(text, name, "`")
    for (i = 2; i <= n; i += 2) {
        first = name[i]; sub(/(::|\/).*/, "", first)
        if (first != name[i] && first in crates && index(row " ", " " first " ") == 0) row = row " " first
        if (name[i] ~ /\/.*\.antt$/) files = files " " name[i]
    }
}

# part[2], part[4], .. are the names. A list is names with a comma or "and" between them; "in" or "of" and a crate or a file after a list is its place.
function cell(text, kind,    n, part, i, j, place, full) {
    n = split(text, part, "`")
    if (n && n % 2 == 0) { fail(FNR, "a backtick is missing"); return }
    for (i = 2; i <= n; i = j) {
        for (j = i + 2; j <= n && part[j - 1] ~ /^(, | and |, and )$/; j += 2);
        place = j <= n && part[j - 1] ~ /^ (in|of) $/ && (part[j] in crates || part[j] in paths) ? part[j] : ""
        full = ""
        for (; i < j; i += 2) full = look_up(part[i], kind, place, full)
        if (place != "") j += 2
    }
}

# looks up one name; gives the name that the next one in the list goes on from
function look_up(name, kind, place, full,    scope, path) {
    scope = place in crates ? " " place : row != "" ? row : section
    path = name; sub(/^\.\//, "", path); sub(/\/$/, "", path)
    if (excepted && name in crates) exceptions[name]
    if (name in language || (kind == "words" && (name in crates || path in paths))) return ""
    if (place in paths && !(place in crates)) { one("theorem", name, " " place, ""); return "" }
    if (kind == "theorem") { one("theorem", name, files, ""); return "" }
    if (name ~ /^Rattle\.std\./) { one("used", name, scope, ""); return "" }
    if (name ~ /::/) return code_name(name, scope)
    if (name ~ /^[A-Z][A-Za-z0-9]*\../) { one("definition", name, scope, ""); return name }
    if (full ~ /::/) return code_name(beside(full, "::", name), scope)
    if (full != "") { one("definition", beside(full, ".", name), scope, ""); return full }
    if (kind == "definition") { fail(FNR, "`" name "` is no definition with its file, as `File.name`"); return "" }
    one(kind == "code" ? "code" : "edit", name, scope, kind == "words" ? "code" : "")
    return ""
}

# the name in the place of full's last part
function beside(full, dot, name,    i, last) {
    for (last = 0; i = index(substr(full, last + 1), dot); last += i + length(dot) - 1);
    return substr(full, 1, last) name
}

# a function or a type by its path, which may begin with its crate
function code_name(name, scope,    first, rest) {
    first = name; sub(/::.*/, "", first)
    rest = substr(name, length(first) + 3)
    if (first in crates) one("code", rest, " " first, "")
    else one("code", name, scope, "")
    return name
}

# exactly one place of the scope must have it, as this kind or as the other one
function one(kind, name, scope, other,    n, at, i, found, count) {
    n = split(scope, at, " ")
    for (i = 1; i <= n; i++) {
        if ((kind, at[i], name) in have) { count++; found = found " " at[i]; named[kind, at[i] " " name]; if (excepted) exceptions[at[i] " " name] }
        else if (other != "" && (other, at[i], name) in have) { count++; found = found " " at[i]; named[other, at[i] " " name]; if (excepted) exceptions[at[i] " " name] }
    }
    if (count == 1 || (count > 1 && kind == "used")) return
    if (count > 1) { fail(FNR, "`" name "` is in each of" found ": say which one"); return }
    if (n == 0) { fail(FNR, "`" name "`: the " (kind == "theorem" ? "file" : "crate") " that has it is to be named here" elsewhere(kind, name)); return }
    gsub(/ /, " or ", scope); sub(/^ or/, "", scope)
    fail(FNR, "`" name "` is no " (other != "" ? said(kind) ", " : "") said(other != "" ? other : kind) " of" scope elsewhere(kind, name))
}

function said(kind) { return kind == "code" ? "function or type" : kind == "used" ? "used name" : kind }
function elsewhere(kind, name) { return (kind, name) in where ? " (it is in" where[kind, name] ")" : "" }

# ---- what the page must name
END {
    for (e in edits) if (!(("edit", e) in named)) { name = e; sub(/ /, "/must-fail/", name); fail(0, page " does not name the edit crates/" name ".edit with its crate") }
    for (c in calls) {
        name = c; sub(/ /, "::", name)
        if (!(("code", c) in named)) fail(0, page " does not name " name)
        if (calls[c]) fail(0, name " has a requires")
    }
    for (c in contracts) {
        crate = c; sub(/ .*/, "", crate); name = c; sub(/ /, "::", name)
        if (!contracts[c] && !(crate in exceptions) && !(c in exceptions)) fail(0, "the contract of " name " is no equation, and the page's Exceptions do not name it")
        if (contracts[c] && c in exceptions) fail(0, "the contract of " name " is an equation, and the page's Exceptions name it")
        contract_count += contracts[c]
    }
    if (!call_count || !edit_count) fail(0, "no public function or no edit found")
    if (!bad) print "promises: every name on " page " is found; it names the " call_count " public functions of vessel and climboat, none of which requires anything, and the " edit_count " must-fail edits; " contract_count " contracts are equations"
    exit bad
}

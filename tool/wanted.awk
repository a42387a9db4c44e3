# What comments expect of queries. Read are a report, whose lines begin with LINE:COLUMN, and the text it is about.
# Printed is for each expectation the number of its query, and it; 0 where it belongs to no query.
# An expectation is a comment "; => WORD" on the line where its query ends, within the query, or alone on the lines
# above it. The text is walked through by bytes; a column counts characters, so bytes that go on with one are left out.
BEGIN {
    constituent = "[^ \t\r\n\f();\"'`,|\\\\\177]"
    words = "^;+[ \t]*=>[ \t]*(T|NIL|REFUSED|UNSURE|TOO-LARGE)([^A-Za-z0-9-]|$)"
}
part == 1 {
    line = line == "" ? $0 : line "\n" $0
    # An end of line between bars belongs to the name of a symbol: the line goes on.
    if (bars(line) % 2) next
    sub(/[ \n].*/, "", line)
    query[line] = ++queries
    line = ""
    next
}
{ walk($0 "\n") }
END { drop() }

# How many bars a line has that are not escaped.
function bars(text) {
    if (index(text, "|") == 0) return 0
    gsub(/\\./, "", text)
    return gsub(/\|/, "", text)
}

# The comment's expectation, or nothing.
function expectation(comment,    at, kind) {
    if (comment !~ words) return ""
    sub(/^;+[ \t]*=>[ \t]*/, "", comment)
    kind = comment
    sub(/[^A-Z-].*/, "", kind)
    if (kind == "REFUSED" && match(comment, /^REFUSED [A-Z0-9]+(-[A-Z0-9]+)+/)) return substr(comment, 1, RLENGTH)
    return kind
}

# Expectations above that no query followed.
function drop() {
    for (; pending > 0; pending--) print 0, above[pending]
}

function heard(comment,    said) {
    said = expectation(comment)
    if (said == "") return
    if (open > 0) print stack[open], said
    else if (ended_on == FNR) print last, said
    else if (!code) above[++pending] = said
    else print 0, said
}

# A bracket that opens, at this line and column.
function opened(column,    place, i) {
    depth++
    place = FNR ":" column
    if (!(place in query)) { drop(); return }
    stack[++open] = query[place]
    level[open] = depth
    for (i = 1; i <= pending; i++) print query[place], above[i]
    pending = 0
}

function closed() {
    if (open > 0 && level[open] == depth) {
        last = stack[open--]
        ended_on = FNR
    }
    if (depth > 0) depth--
}

# state: "" outside; "string"; "bars" within |..|; "block" within #| |#, `nested` deep. escaped: the next is taken.
function walk(line,    n, i, c, column) {
    n = length(line)
    column = 0
    code = 0
    for (i = 1; i <= n; i++) {
        c = substr(line, i, 1)
        if (c >= "\200" && c < "\300") continue
        column++
        if (escaped) { escaped = 0; continue }
        if (state == "block") {
            if (c == "|" && substr(line, i + 1, 1) == "#") {
                i++; column++
                if (--nested == 0) state = ""
            } else if (c == "#" && substr(line, i + 1, 1) == "|") { i++; column++; nested++ }
            continue
        }
        if (c == "\\") { escaped = token = code = 1; if (state == "") drop(); continue }
        if (state == "string") { if (c == "\"") state = ""; continue }
        if (state == "bars") { if (c == "|") state = ""; continue }
        if (c == ";") {
            sub(/\r?\n$/, "", line)
            heard(substr(line, i))
            token = 0
            return
        }
        if (c == "#" && !token && substr(line, i + 1, 1) == "|") {
            state = "block"
            nested = 1
            i++; column++
            continue
        }
        if (c == "(") { opened(column); code = 1; token = 0; continue }
        if (c == ")") { closed(); code = 1; token = 0; drop(); continue }
        if (c == "\"") { state = "string"; code = 1; token = 0; drop(); continue }
        if (c == "|") { state = "bars"; code = token = 1; drop(); continue }
        token = c ~ constituent
        if (c !~ /[ \t\r\n\f]/) { code = 1; drop() }
    }
}

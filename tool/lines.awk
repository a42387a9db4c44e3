# Prints a report for people, editors or GitHub's workflows. Read are, in this order, kinds.txt, the expectations that
# wanted.awk printed (none without --expect), and the report. The environment has NAME, EXPECT, GITHUB, QUIET and
# COUNTS, the file that the counts go to: queries, findings, expectations, differences, expectations of no query.
BEGIN {
    name = ENVIRON["NAME"]
    expect = ENVIRON["EXPECT"] != ""
    github = ENVIRON["GITHUB"] != ""
    quiet = ENVIRON["QUIET"] != ""
    queries = findings = differences = expectations = lost = 0
}
FILENAME == ARGV[1] {
    if ($0 !~ /^#/) { split($0, cells, "\t"); meaning[cells[1]] = cells[2] }
    next
}
FILENAME == ARGV[2] {
    said = $0
    sub(/^[0-9]+ /, "", said)
    if ($1 == 0) lost++
    else { wanted[$1] = said; expectations++ }
    next
}
{ line = line == "" ? $0 : line "\n" $0 }
# An end of line between bars belongs to the name of a symbol: the line goes on.
bars(line) % 2 { next }
{
    $0 = line
    line = ""
    if ($1 == "FAULT") fault()
    else answered()
}
END { print queries, findings, expectations, differences, lost > ENVIRON["COUNTS"] }

# How many bars a line has that are not escaped.
function bars(text) {
    if (index(text, "|") == 0) return 0
    gsub(/\\./, "", text)
    return gsub(/\|/, "", text)
}

# A text for an annotation: what GitHub takes as an end is written by code.
function coded(text, in_property) {
    gsub(/%/, "%25", text)
    gsub(/\r/, "%0D", text)
    gsub(/\n/, "%0A", text)
    if (in_property) { gsub(/:/, "%3A", text); gsub(/,/, "%2C", text) }
    return text
}

# One finding or difference, at a place LINE:COLUMN or at none.
function tell(level, place, text,    parts, at) {
    if (!github) {
        print name ":" (place == "" ? "" : place ":") " " text
        return
    }
    at = "file=" coded(name, 1)
    if (split(place, parts, ":") == 2) at = at ",line=" parts[1] ",col=" parts[2]
    print "::" level " " at ",title=selvdrik::" coded(text, 0)
}

# A finding with what it means: on a line of its own, or in an annotation behind it.
function explained(level, place, text, kind, at) {
    if (quiet || !(kind in meaning)) tell(level, place, text)
    else if (github) tell(level, at, text " (" meaning[kind] ")")
    else {
        tell(level, place, text)
        print name ":" (at == "" ? "" : at ":") " note: " meaning[kind]
    }
}

function fault() {
    explained("error", $3, "FAULT " $2, "FAULT " $2, $3)
}

# Whether an answer is as expected: NIL with any witness, UNSURE in either form, REFUSED with any kind or the named one.
function agrees(said, want) {
    if (want == "NIL") return said == "NIL" || said ~ /^NIL WITNESS /
    if (want == "UNSURE") return said == "UNSURE" || said ~ /^NIL UNSURE( |$)/
    return said == want || index(said, want " ") == 1
}

function answered(    said, found) {
    queries++
    said = $0
    sub(/^[0-9]+:[0-9]+ /, "", said)
    found = $2 == "REFUSED" || $2 == "TOO-LARGE"
    if (queries in wanted) {
        if (agrees(said, wanted[queries])) return
        differences++
        tell("error", $1, "expected " wanted[queries] ", answered " said)
        return
    }
    if (found) findings++
    if ($2 == "REFUSED") explained("warning", $1, said, "REFUSED " $3, $4)
    else if ($2 == "TOO-LARGE") explained("warning", $1, said, $2, $1)
    else if (!expect) print name ":" $1 ": " said
}

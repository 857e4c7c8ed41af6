# Sets right what programs do to a sheet when they save it: a byte order mark, line ends, quotes, spaces around a field, semicolons or tabs for commas, small
# letters, blank lines, empty columns at the right, a first line of column names. What it does not know it leaves as it stands, so that the sheet is refused and
# not read as another one. It tells on standard error what it took for column names, and what it left in place because it may belong to the sheet.
# Usage: awk -f sheets/cure.awk saved.csv > mine.csv
{ line[NR] = $0 }

END {
    lines = NR
    if (substr(line[1], 1, 2) == "\377\376" || substr(line[1], 1, 2) == "\376\377") {
        tell("left as it is, for it is in UTF-16: iconv -f UTF-16 -t UTF-8 saved.csv | awk -f sheets/cure.awk > mine.csv")
        as_it_is()
        exit
    }
    sub(/^\357\273\277/, "", line[1])
    # In a file without LF, lines end with CR alone. In any other, a CR inside a line is no line end, and stays.
    if (lines == 1) lines = split(line[1] "", line, "\r")
    for (i = 1; i <= lines; i++) {
        sub(/\r+$/, "", line[i])
        if (line[i] ~ /,/ && line[i] !~ /[;\t]/) commas = 1
    }
    for (i = 1; i <= lines; i++) {
        row = mended(line[i])
        if (row ~ /^,+$/) {
            empty_rows++
            empty_row = row
            above = records
        } else if (row != "") {
            record[++records] = row
        }
    }
    # Nothing but blank lines is left, so that no list becomes one without bans.
    if (!records) {
        as_it_is()
        exit
    }
    columns = cut()
    names = header()
    if (names) tell("left out, as column names: " record[1])
    fields = sheet(names + 1)
    words = records - names
    # The first empty column at the right may hold the last entries, missing, of a sheet with start fields; column names that end before it say that it does not.
    # Behind start fields the number of fields is none that a sheet with so many records can have.
    if (columns && fields == words + 1 && !(names && count(record[1]) == fields)) {
        tell("left in place, for the last entries may be missing there: an empty column at the right; section 4 of docs/GUIDE.md has its cure")
        for (i = 1; i <= records; i++) record[i] = record[i] ","
    }
    # In the same way one empty row may be a missing word of a sheet without start fields.
    keep = empty_rows == 1 && fields == words + 2
    if (keep) tell("left in place, for a word may be missing there: an empty row")
    for (i = 1; i <= records; i++) {
        if (keep && i == above + 1) printf "%s\r\n", empty_row
        if (i > names) printf "%s\r\n", record[i]
    }
    if (keep && above == records) printf "%s\r\n", empty_row
}

function tell(what) { print "cure.awk: " what | "cat 1>&2" }

function as_it_is(   i) { for (i = 1; i <= lines; i++) printf "%s\r\n", line[i] }

function count(s,   field) { return split(s, field, ",") }

# A line with its fields as they are in a sheet. Where semicolons part the fields of every line, a comma may be a decimal one, as in 1,0 for 1: such a line stays.
function mended(s,   field, n, i) {
    if (s ~ /^ *"[^"]*" *$/) gsub(/"/, "", s)
    if (commas || s !~ /,/) gsub(/[;\t]/, ",", s)
    n = split(s, field, ",")
    s = ""
    for (i = 1; i <= n; i++) s = s (i > 1 ? "," : "") bare(field[i])
    return toupper(s)
}

function bare(s) {
    sub(/^ +/, "", s)
    sub(/ +$/, "", s)
    return s ~ /^"[^"]*"$/ ? bare(substr(s, 2, length(s) - 2)) : s
}

# Cuts the empty columns at the right, where every record has as many of them, and returns how many there were.
function cut(   columns, i) {
    for (i = 1; i <= records; i++) {
        match(record[i], /,*$/)
        if (i == 1) columns = RLENGTH
        if (RLENGTH != columns) return 0
    }
    for (i = 1; i <= records; i++) record[i] = substr(record[i], 1, length(record[i]) - columns)
    return columns
}

# The number of fields of each record from this one on, if they are a code sheet by their number and their entries; else 0.
function sheet(from,   i, n, words) {
    words = records - from + 1
    n = count(record[from])
    if (n != words + 1 && n != words + 2) return 0
    for (i = from; i <= records; i++) if (count(record[i]) != n || record[i] !~ /^[^,]+(,[01])+$/) return 0
    return n
}

# A letter that is no digit and looks like none.
function name(s) { return s ~ /[GHJKMNP-Z]/ }

# Whether the first record has column names. Either all its fields are names, but for an empty first one; above a code sheet, where letters are no entries, A to F
# are names too. So a record with slips stays, for some field of it is a number or looks like one. Or it has the words below, in their order, behind what stands
# above the words and the start fields. Above two words that has to be a name: three fields, of which one is missing, may be a ban.
function header(   field, n, i, below, words, titles, named) {
    if (records < 2) return 0
    n = split(record[1], field, ",")
    below = sheet(2)
    if (field[1] != "" && !name(field[1])) named = -1
    for (i = 1; i <= n && named >= 0; i++) {
        if (name(field[i])) named++
        else if (i > 1 && !(below && field[i] ~ /^[A-F]+$/)) named = -1
    }
    if (named > 0) return 1
    words = records - 1
    titles = n - words
    if (!below || titles < 0 || titles > 2 || (titles == 2) != (below == words + 2)) return 0
    for (i = 1; i <= words; i++) if (field[titles + i] != first(record[i + 1])) return 0
    if (titles > 0 && field[1] != "" && !name(field[1])) return 0
    return titles == 2 ? name(field[2]) : titles == 1 && name(field[1]) || below != 3
}

function first(s) { return substr(s, 1, index(s, ",") - 1) }

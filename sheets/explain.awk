# Says a verdict in sentences, with its readings spelled in symbols. The sheet is the one that the program was given; readings name its words, whatever a ban list
# says, so no list is needed here.
# Usage: target/bin/verdict mine.bans < mine.csv | awk -f sheets/explain.awk mine.csv
BEGIN {
    FS = ","
    while (ARGC > 1 && (getline row < ARGV[1]) > 0) {
        sub(/\r$/, "", row)
        word[words++] = substr(row, 1, index(row ",", ",") - 1)
    }
    ARGV[1] = ""
}

{ sub(/\r$/, "") }

$1 == "ambiguous" { message = $2; next }

message != "" && readings < 2 {
    spelled[++readings] = reading()
    if (readings == 2) {
        printf "The message %s has at least two readings: %s and %s.\n", message, spelled[1], spelled[2]
        print "No shorter message has two."
    }
    next
}

$1 == "decipherable" {
    answered = 1
    printf "No message has two readings. "
    if ($2 == "unbounded") print "But no number of symbols always tells the next word."
    else if ($2 == 0) print "The next word is known before a symbol is read."
    else if ($2 == 1) print "The first symbol of what is still undivided tells the next word; without it the word is not always known."
    else printf "The first %d symbols of what is still undivided, or all of it if it is shorter, tell the next word; %d do not always.\n", $2, $2 - 1
}

$1 == "refused" {
    answered = 1
    printf "%s is refused %d, and there is no verdict. Why, and what to do: docs/GUIDE.md, section 9.\n", refused($2), $2
}

END { if (readings != 2 && !answered) print "There is no verdict; what the program said on standard error has its cure in docs/GUIDE.md, section 9." }

# A reading in symbols, and in word numbers.
function reading(   i, s) {
    for (i = 1; i <= NF; i++) s = s (i > 1 ? "·" : "") ($i in word ? word[$i] : "?")
    return s " (" (NF > 1 ? "words " : "word ") $0 ")"
}

function refused(number) { return number == 1 ? "The sheet, or the ban list," : number < 16 ? "The sheet" : "The ban list" }

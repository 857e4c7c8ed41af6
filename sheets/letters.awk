# Makes a class sheet from a list of letters. Each line of the list has a symbol digit and then the letters that stand for it; spaces do not count. The list comes
# as od writes its bytes. A letter that the list has twice, or in two lines, gets one more record at the end of the sheet, so that the sheet is refused and the
# letter can be seen; a line that begins with no digit gets ? for one, and is refused too.
# Usage: iconv -f UTF-8 -t WINDOWS-1257 letters.txt | od -An -v -tx1 | awk -f sheets/letters.awk > mine.classes
BEGIN { digits = "30 31 32 33 34 35 36 37 38 39 41 42 43 44 45 46" }
{ for (i = 1; i <= NF; i++) take(toupper($i)) }
END {
    for (n = 0; n < 256; n++) {
        byte = sprintf("%02X", n)
        if (byte in symbols && symbols[byte] == symbol) {
            highest = byte
        } else {
            put()
            symbol = byte in symbols ? symbols[byte] : ""
            lowest = highest = byte
        }
    }
    put()
    printf "%s", again
}

function take(byte) {
    if (byte == "0A") {
        digit = ""
    } else if (byte == "20" || byte == "0D") {
        return
    } else if (digit == "") {
        digit = index(digits, byte) ? substr("0123456789ABCDEF", (index(digits, byte) + 2) / 3, 1) : "?"
    } else if (byte in symbols) {
        again = again byte "," byte "," digit "\r\n"
    } else {
        symbols[byte] = digit
    }
}

# the record of a run of bytes with the same symbol
function put() {
    if (symbol != "") printf "%s,%s,%s\r\n", lowest, highest, symbol
}

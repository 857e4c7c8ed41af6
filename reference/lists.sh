# Lists of what is stored: the tables of sheets/README.md and texts/README.md. To be read by the check scripts.
# shellcheck shell=bash

# rows KIND LIST: the rows of the tables whose first heading is KIND: the name, a tab, and what stands in the last column.
rows() {
    awk -v kind="$1" '
        !/^\|/ { table = 0; next }
        !table { table = 1; head = $0; sub(/^\| */, "", head); sub(/ *\|.*/, "", head); next }
        head == kind && match($0, /^\| `[^`]+` \|/) {
            last = $0; sub(/ *\|$/, "", last); sub(/.*\| */, "", last)
            print substr($0, 4, RLENGTH - 6) "\t" last
        }' "$2"
}

# names KIND LIST: the names alone.
names() { rows "$1" "$2" | cut -f 1; }

# files_of_sheets FOLDER: the files that its list names. A class sheet has a result only where it is refused.
files_of_sheets() {
    rows Sheet "$1/README.md" | awk -F '\t' '{ print $1 ".csv"; print $1 ".out" }'
    rows 'Sheet and list' "$1/README.md" | awk -F '\t' '{ print $1 ".csv"; print $1 ".bans"; print $1 ".out" }'
    rows 'Class sheet' "$1/README.md" | awk -F '\t' '{ print $1 ".classes" } $2 ~ /^`refused,/ { print $1 ".out" }'
}

# files_of_texts FOLDER: the same for texts.
files_of_texts() { rows Text "$1/README.md" | awk -F '\t' '{ print $1 ".txt"; print $1 ".out" }'; }

# as_listed FOLDER FILES ENDING...: fails, with a line for each, where a file that is listed is missing, where one with such an ending is not listed, where
# one is listed twice, and where none is listed. FILES prints the list.
as_listed() {
    local folder=$1 listed stored
    listed="$("$2" "$folder" | LC_ALL=C sort)"
    stored="$(for ending in "${@:3}"; do find "$folder" -maxdepth 1 -name "*.$ending" -printf '%f\n'; done | LC_ALL=C sort)"
    if [ -z "$listed" ]; then
        echo "nothing is listed in $folder/README.md"
        return 1
    fi
    {
        LC_ALL=C comm -23 <(uniq <<<"$listed") <(cat <<<"$stored") | sed 's/^/missing: /'
        LC_ALL=C comm -13 <(uniq <<<"$listed") <(cat <<<"$stored") | sed '/^$/d; s/^/no row in the list: /'
        uniq -d <<<"$listed" | sed 's/^/twice in the list: /'
    } | { ! grep .; }
}

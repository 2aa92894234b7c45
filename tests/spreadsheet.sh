#!/bin/sh
# Tries the way of a book through a spreadsheet and back: each book of examples/ is opened by LibreOffice with all columns as
# text, kept as a spreadsheet, and written as CSV again. The records have to be the same, and so has the report of a check. Then
# two things are tried that go wrong: columns of no kind, and a book in which no variant has a last day.
#
#   tests/spreadsheet.sh [PROGRAM]
#
# PROGRAM is the built program, crates/partsbook/out/partsbook without the word. It needs LibreOffice without a screen (of Debian
# the package libreoffice-calc) and python3. It says what it did; the status is 1 where something comes back otherwise.
top=$(cd "$(dirname "$0")/.." && pwd) || exit 1
named=$1
. "$top/tests/trial.sh"
command -v soffice > /dev/null || { echo 'spreadsheet: there is no soffice, the command of LibreOffice' >&2; exit 1; }
# A profile of its own, so that a LibreOffice that is open isn't touched.
profile="-env:UserInstallation=file://$work/profile"
failed=0

# Fields between commas, in double quotes where they have to be, as UTF-8, from row 1, and each of ten columns as text (2).
as_text='CSV:44,34,76,1,1/2/2/2/3/2/4/2/5/2/6/2/7/2/8/2/9/2/10/2,0,false,false'
as_csv='csv:Text - txt - csv (StarCalc):44,34,76,1,,0,false,true,false'

office() { soffice "$profile" --headless --norestore "$@" > "$work/said" 2>&1 || cat "$work/said" >&2; }

# Whether two CSV files have the same records. Empty fields at the end of a row don't count.
same_records() {
    python3 - "$1" "$2" <<'END'
import csv, sys

def records(name):
    with open(name, newline="", encoding="utf-8-sig") as file:
        rows = [row for row in csv.reader(file)]
    for row in rows:
        while row and row[-1] == "":
            row.pop()
    return rows

one, other = map(records, sys.argv[1:])
sys.exit(one != other)
END
}

say() {
    printf '%s: %s\n' "$1" "$2"
    [ "$1" = ok ] || failed=1
}

# A spreadsheet writes as many columns as it uses. Where no variant has a last day the eighth would be missing, so the first
# variant is given the book's last day, which says the same.
mkdir "$work/books"
for book in "$top"/examples/*.csv; do
    name=$(basename "$book")
    if grep -q '^variant,.*[0-9]$' "$book"; then
        cp "$book" "$work/books/$name"
    else
        last=$(sed -n '1s/^book,[^,]*,[^,]*,\([0-9]*\).*/\1/p' "$book")
        awk -v last="$last" '/^variant,/ && !given { given = 1; $0 = $0 last } { print }' "$book" > "$work/books/$name"
        say ok "$name: no variant has a last day; the first is given day $last"
    fi
    [ "$("$program" check < "$book")" = "$("$program" check < "$work/books/$name")" ] || say wrong "$name: another report"
done

for kind in ods xlsx; do
    mkdir "$work/$kind" "$work/$kind-back"
    office --infilter="$as_text" --convert-to "$kind" --outdir "$work/$kind" "$work"/books/*.csv
    office --convert-to "$as_csv" --outdir "$work/$kind-back" "$work/$kind"/*."$kind"
    for book in "$work"/books/*.csv; do
        name=$(basename "$book" .csv)
        back=$work/$kind-back/$name.csv
        "$program" check < "$book" > "$work/before"
        status=$?
        what="$name.csv by $name.$kind and back"
        if ! same_records "$book" "$back"; then
            say wrong "$what: other records"
        elif [ "$("$program" check < "$back"; echo $?)" != "$(cat "$work/before"; echo "$status")" ]; then
            say wrong "$what: another report"
        else
            say ok "$what: the same $(wc -l < "$book") rows and the same report, which ends in $(tail -n 1 "$work/before")"
        fi
    done
done

# What goes wrong, and has to be refused.
refused() { # what, the book as it came back, the row, what the check has to say
    found=$("$program" check < "$2")
    row=$(sed -n "$3p" "$2")
    if [ "$found" = "$4" ]; then
        say ok "$1: row $3 comes back as $row, which is refused: $found"
    else
        say wrong "$1: row $3 is $row, and the check says $found"
    fi
}
mkdir "$work/plain" "$work/plain-back"
office --convert-to ods --outdir "$work/plain" "$work/books/van.csv" "$top/examples/engine.csv"
office --convert-to "$as_csv" --outdir "$work/plain-back" "$work"/plain/*.ods
refused 'van.csv with columns of no kind' "$work/plain-back/van.csv" 23 'book fault 23 7'
refused 'engine.csv, in which no variant has a last day' "$work/plain-back/engine.csv" 14 'book fault 11 6'
exit $failed

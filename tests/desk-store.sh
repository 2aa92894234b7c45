#!/bin/sh
# Tries the desk over a real file with real tools: a desk is run, sqlite3 reads its store, a second desk goes on from it, and
# bad stores are refused and left as they were. It isn't part of the gate: it needs the built program, sqlite3 and cmp.
top=$(cd "$(dirname "$0")/.." && pwd) || exit 1
# The program itself: behind a launcher a kill would meet it some moments later.
named=
. "$top/tests/trial.sh"
store=$work/desk.db
failed=0

say() {
    printf '%s: %s\n' "$1" "$2"
    [ "$1" = ok ] || failed=1
}

same() { # what, wanted, found
    if [ "$2" = "$3" ]; then say ok "$1"; else
        say wrong "$1"
        printf 'wanted: %s\nfound: %s\n' "$2" "$3"
    fi
}

# One request, with CR LF at each line's end: method, path, caller, body.
request() {
    printf '%s %s HTTP/1.1\r\nHost: localhost\r\nX-Caller: %s\r\nContent-Length: %s\r\n\r\n%s' "$1" "$2" "$3" "${#4}" "$4"
}

desk() { "$program" desk "$store"; }

desk < "$top/examples/desk.http" > "$work/first.out"
same 'a first desk ends with 0' 0 $?
cmp -s "$work/first.out" "$top/examples/desk.out"
same 'it answers examples/desk.http by examples/desk.out' 0 $?
same 'one file is left' desk.db "$(cd "$work" && ls desk.db*)"
same 'integrity_check' ok "$(sqlite3 "$store" 'pragma integrity_check')"
same 'form' 2 "$(sqlite3 "$store" 'select number from form')"
same 'drafts' 'T|ANNA|1|1' "$(sqlite3 "$store" 'select name, owner, revision, length(body) > 0 from drafts')"
same 'books' '1|T|1' "$(sqlite3 "$store" 'select number, draft, revision from books')"
same 'orders' 'HALL1|7|1|1|M1' "$(sqlite3 "$store" 'select caller, number, book, day, codes from orders')"
same 'withdrawn' 1 "$(sqlite3 "$store" 'select number from withdrawn')"
# sqlite3 writes a line's end behind a value, but not into a file of its own.
(cd "$work" && sqlite3 desk.db "select writefile('book.csv', body), writefile('book.cert', cert) from books" > /dev/null)
same 'the kept certificate shows the kept book' 'verified T slices 1' \
    "$("$program" verify "$work/book.cert" < "$work/book.csv" | cut -d ' ' -f 1-4)"

request GET /orders/7 HALL1 '' | desk > "$work/second.out"
same 'a second desk ends with 0' 0 $?
same 'and has the order' 'accepted' "$(sed -n 6p "$work/second.out" | tr -d '\r')"

# What is refused: the status is 6, the text is a line, and the file is as it was.
refused() { # what, line
    cp "$store" "$work/before"
    line=$(request GET /orders/7 HALL1 '' | desk)
    same "$1: status" 6 $?
    same "$1" "$2" "$line"
    cmp -s "$store" "$work/before"
    same "$1: the file is as it was" 0 $?
}

sqlite3 "$store" "update books set cert = substr(cert, 1, length(cert) - 1)"
refused 'a certificate without its last byte' 'bad row 2 1'
printf 'no database, though it is long enough to be looked at as one\n' > "$store"
refused 'a text' 'store fault'
rm -f "$store"
sqlite3 "$store" 'create table mine (number integer)'
refused "another program's database" 'store fault'
exit $failed

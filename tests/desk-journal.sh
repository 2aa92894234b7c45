#!/bin/sh
# Tries the desk over a real journal: a desk is run, tests/journal-rows.py reads its store, a second desk goes on from it, a
# desk is killed at many moments under load, and a file that is no journal is refused and left as it was. It isn't part of the
# gate: it needs the built program, python3 and cmp. The number of kills is the first argument, or 20.
top=$(cd "$(dirname "$0")/.." && pwd) || exit 1
# The program itself: behind a launcher a kill would meet it some moments later.
named=
. "$top/tests/trial.sh"
store=$work/desk.journal
kills=${1:-20}
failed=0

say() {
    printf '%s: %s\n' "$1" "$2"
    [ "$1" = ok ] || failed=1
}

same() { # what, wanted, found
    if [ "$2" = "$3" ]; then say ok "$1"; else
        say wrong "$1"
        printf 'wanted: %s\nfound: %s\n' "$2" "$3"
    fi
}

# One request, with CR LF at each line's end: method, path, caller, body.
request() {
    printf '%s %s HTTP/1.1\r\nHost: localhost\r\nX-Caller: %s\r\nContent-Length: %s\r\n\r\n%s' "$1" "$2" "$3" "${#4}" "$4"
}

desk() { "$program" desk "$store"; }

rows() { python3 "$top/tests/journal-rows.py" "$store"; }

desk < "$top/examples/desk.http" > "$work/first.out"
same 'a first desk ends with 0' 0 $?
cmp -s "$work/first.out" "$top/examples/desk.out"
same 'it answers examples/desk.http by examples/desk.out' 0 $?
same 'one file is left' desk.journal "$(cd "$work" && ls desk.journal*)"
same 'its header' '01 50 42 4a 4f 55 52 4e' "$(od -An -tx1 -N8 "$store" | sed 's/^ *//')"
same 'form' 'form 2' "$(rows | grep '^form')"
same 'orders' 'order HALL1|7|1|1|M1' "$(rows | grep '^order')"
same 'withdrawn' 'withdrawn 1' "$(rows | grep '^withdrawn')"

request GET /orders/7 HALL1 '' | desk > "$work/second.out"
same 'a second desk ends with 0' 0 $?
same 'and has the order' 'accepted' "$(sed -n 6p "$work/second.out" | tr -d '\r')"

# A desk is killed while it takes orders: each that was answered is there, and at most one more. The first requests of
# examples/desk.http put a book, check it and release it.
front=$(grep -abo 'PUT /orders/7' "$top/examples/desk.http" | head -n 1 | cut -d: -f1)
load() { # how many orders
    head -c "$front" "$top/examples/desk.http"
    n=1
    while [ $n -le "$1" ]; do
        request PUT "/orders/$n" HALL1 '{"book":1,"day":1,"codes":["M1"]}'
        n=$((n + 1))
    done
}
status() { # of a request
    request GET "/orders/$1" HALL1 '' | desk | sed -n 1p | cut -d' ' -f2
}
load 3000 > "$work/load.http"
round=0
most=0
while [ $round -lt "$kills" ]; do
    rm -f "$store"
    # Called by its name and not by the function, so that the kill meets the program.
    "$program" desk "$store" < "$work/load.http" > "$work/load.out" &
    child=$!
    sleep "0.$(od -An -N2 -tu2 /dev/urandom | tr -d ' ')"
    kill -9 $child 2> /dev/null
    wait $child 2> /dev/null
    # The draft and the release are answered with 201, too.
    answered=$(($(grep -ac '^HTTP/1.1 201' "$work/load.out") - 2))
    [ $answered -lt 0 ] && answered=0
    [ $answered -gt $most ] && most=$answered
    rows | sed -n 's/^order HALL1|\([0-9]*\)|.*/\1/p' > "$work/there"
    there=$(wc -l < "$work/there")
    seq 1 "$there" | cmp -s - "$work/there" || say wrong "kill $round: other orders are there than 1 to $there"
    if [ "$there" -ne "$answered" ] && [ "$there" -ne $((answered + 1)) ]; then
        say wrong "kill $round: $answered answered, $there there"
    fi
    if [ $answered -gt 0 ] && [ "$(status $answered)" != 200 ]; then
        say wrong "kill $round: the next desk does not have order $answered"
    fi
    [ "$(status $((answered + 2)))" = 404 ] || say wrong "kill $round: the next desk has an order that nobody placed"
    round=$((round + 1))
done
same "killed $kills times, behind up to $most orders" 0 $failed

printf 'a text, no journal' > "$store"
cp "$store" "$work/before"
same 'a text is refused' 'bad row 0 0' "$(request GET /orders/7 HALL1 '' | desk)"
cmp -s "$store" "$work/before"
same 'and stays as it was' 0 $?

exit $failed

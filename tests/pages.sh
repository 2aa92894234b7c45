#!/bin/sh
# Tries the pages: types each command that README.md and docs/*.md show, and compares what comes out with what stands below it;
# and looks whether what the texts cite is there (tests/links.py), each wrong body is told of (tests/wrong-bodies.py), and the books
# among the cases of worked_runs are those that are there.
#
#   tests/pages.sh [PROGRAM [PAGE..]]
#
# PROGRAM is the built program, crates/partsbook/out/partsbook without the word. A page is typed from top to bottom in a folder
# of its own, which has `partsbook`, `tools` and `examples` and nothing else at first. A command is a line of a block (between ```) that
# begins with `$ `; what follows it, up to the next one or the end of the block, has to be its standard output. There `..` on a
# line of its own stands for any lines, and blank lines at the end and the CR of lines that end in CR LF don't count.
# Nothing may stand on standard error (see `said_of`), and the status has to be that which tools/help.txt has for what was
# written, or 0 of other programs (see `due_status`). Commands of the tools that prove and build (see `is_left_out`) are not
# typed. The status is 1 where a page differs.
# Where PAGES_FROM names a folder, pages are typed in copies of it, as of an archive that was unpacked (tests/archive.sh).
# It needs curl, git, sqlite3, xxd, python3, soffice (LibreOffice), openssl and haproxy, for the pages that use them.
top=$(cd "$(dirname "$0")/.." && pwd) || exit 1
named=$1
[ $# -gt 0 ] && shift
. "$top/tests/trial.sh"
cd "$top" && [ $# -gt 0 ] || set -- README.md docs/*.md
listeners=
services=
trap '[ -z "$listeners" ] || kill $listeners; rm -rf "$work"' EXIT
failed=0
typed=0
# Curl shows no progress, as at a terminal where it writes to it. No command finds settings of the user's.
printf 'silent\nshow-error\n' > "$work/.curlrc"
export CURL_HOME="$work" HOME="$work"

for tool in curl git sqlite3 xxd python3 soffice openssl haproxy; do
    command -v "$tool" > /dev/null || echo "there is no $tool: pages that use it will differ"
done

# Cuts a page into files LINE.command and LINE.wanted, where LINE is that of the command.
cut_page() { # page, folder
    awk -v folder="$2" '
        /^```/ { inside = !inside; at = ""; next }
        inside && /^\$ / { at = sprintf("%s/%04d", folder, NR); print substr($0, 3) > (at ".command"); printf "" > (at ".wanted"); next }
        inside && at != "" { print > (at ".wanted") }' "$1"
}

# Whether the lines of the first file fit those of the second.
fits() { # wanted, found
    awk '
        function rest_fits(w, f,   any) {
            if (w > wanted_count) return f > found_count
            if (wanted[w] == "..") {
                for (any = f; any <= found_count + 1; any++) if (rest_fits(w + 1, any)) return 1
                return 0
            }
            return f <= found_count && wanted[w] == found[f] && rest_fits(w + 1, f + 1)
        }
        { sub(/\r$/, "") }
        NR == FNR { wanted[FNR] = $0; if ($0 != "") wanted_count = FNR; next }
        { found[FNR] = $0; if ($0 != "") found_count = FNR }
        END { exit !rest_fits(1, 1) }' "$1" "$2"
}

is_left_out() {
    case $1 in
    .ci/run* | ./build* | rt\ * | git\ * | sudo\ *) return 0 ;;
    *) return 1 ;;
    esac
}

# What the last program of a command is called by: the words behind the last `|`, `;` or `&` outside quotes.
last_call() { # text
    printf '%s\n' "$1" | awk -v single="'" '{
        for (i = 1; i <= length($0); i++) {
            byte = substr($0, i, 1)
            if (quote != "") { if (byte == quote) quote = "" }
            else if (byte == single || byte == "\"") quote = byte
            else if (byte == "|" || byte == ";" || byte == "&" && substr($0, i - 1, 1) != ">") { call = ""; continue }
            call = call byte
        }
    } END { sub(/^ */, "", call); print call }'
}

# The status that tools/help.txt has for a text of the program.
status_of_text() { # call, text
    awk -v call="$1" '
        { sub(/\r$/, "") }
        $0 != "" { if (first == "") first = $0; last = $0 }
        /^(undecided|left)( |$)/ { left = 1 }
        $0 == "none" { none = 1 }
        /^(refused|unfit) / { refused = 1 }
        END {
            if (first ~ /^(refused|unfit|none) |^no car is in both|: blocked,/) print 1
            else if (first ~ /^now /) print none ? 1 : left ? 7 : 0
            else if (last == "end") print refused ? 1 : 0
            else if (first ~ /^undecided after /) print 7
            else if (first ~ /^usage: /) print 2
            else if (first ~ /^(book|order|rule) fault |^limit |^day outside / || first == "no such book") print 3
            else if (first == "read fault") print 4
            else if (first == "store fault" || first ~ /^bad row /) print 6
            else if (first ~ /^certificate fault /) print 8
            else if (first == "want of memory") print 9
            else if (first == "door fault") print 10
            else if (last == "end blocked" || last ~ /^end [1-9]/ && call !~ / (rejudge|impact) /) print 1
            else if (last == "end undecided" || last == "end 0" && left) print 7
            else print 0
        }' "$2"
}

# The status that a command should end with, by what its last program wrote to standard output or to a file.
due_status() { # text, folder, found
    call=$(last_call "$1")
    file=$(printf '%s\n' "$call" | sed -n 's/.*[^0-9&]> *\([^ ]*\).*/\1/p')
    [ -n "$file" ] && file=$2/$file || file=$3
    [ -r "$file" ] || file=/dev/null
    case $call in
    'timeout -s KILL '*) echo 137 ;;
    diff\ *) [ -s "$file" ] && echo 1 || echo 0 ;;
    ./partsbook\ * | ./partsbook | tools/compare\ * | tools/report\ *) status_of_text "$call" "$file" ;;
    *) echo 0 ;;
    esac
}

# What stands on standard error that shouldn't: of LibreOffice and HAProxy nothing counts, nor that a killed desk was killed,
# nor what the launcher of an archive says.
said_of() { # text, said
    [ -z "$PAGES_FROM" ] || return
    case $1 in
    soffice\ * | *DESK_BY_HAND=1\ *haproxy\ *) ;;
    *) grep -v '^Killed$' "$2" ;;
    esac
}

# Whether a command that goes on has written its first line, or where none is shown listens at its port.
has_begun() { # step, text
    [ ! -s "$1.wanted" ] || { [ -s "$1.found" ]; return; }
    port=$(printf '%s\n' "$2" | sed -n 's/.* serve [^ ]* \([0-9]*\) .*/\1/p')
    awk -v port="$(printf ':%04X' "${port:-0}")" '$2 ~ port "$" && $4 == "0A" { found = 1 } END { exit !found }' /proc/net/tcp
}

type_page() { # page
    folder=$work/$(basename "$1" .md)
    mkdir -p "$folder/page" "$folder/steps"
    if [ -n "$PAGES_FROM" ]; then
        cp -r "$PAGES_FROM/." "$folder/page"
    else
        cp -r "$top/examples" "$folder/page/examples"
        cp -r "$top/tools" "$folder/page/tools"
        cp "$program" "$folder/page/partsbook"
    fi
    cut_page "$1" "$folder/steps"
    for command in "$folder"/steps/*.command; do
        [ -e "$command" ] || continue
        step=${command%.command}
        line=$(basename "$step" | sed 's/^0*//')
        text=$(cat "$command")
        if is_left_out "$text"; then
            echo "left out: $1:$line: $text"
            continue
        fi
        typed=$((typed + 1))
        why=
        case $text in
        *'&') # It goes on while the page is typed, which waits for its first line, or where none is shown until it listens.
            (cd "$folder/page" && exec sh -c "exec ${text%&}") > "$step.found" 2> "$step.said" < /dev/null &
            listeners="$listeners $!"
            services="$services $step"
            tries=60
            while ! has_begun "$step" "$text" && [ $((tries -= 1)) -gt 0 ]; do sleep 0.5; done
            ;;
        *)
            (cd "$folder/page" && sh -c "$text") > "$step.found" 2> "$step.said" < /dev/null
            status=$?
            due=$(due_status "$text" "$folder/page" "$step.found")
            [ "$status" = "$due" ] || why="its status is $status, and not $due"
            ;;
        esac
        fits "$step.wanted" "$step.found" || why="what it writes differs${why:+, and $why}"
        [ -z "$(said_of "$text" "$step.said")" ] || why="${why:+$why, and }it writes to standard error"
        if [ -n "$why" ]; then
            failed=1
            echo "differs: $1:$line: $text: $why"
            diff "$step.wanted" "$step.found" | sed 's/^/    /'
            sed 's/^/    said: /' "$step.said"
        fi
    done
    if [ -n "$listeners" ]; then
        kill $listeners 2> /dev/null
        wait $listeners 2> /dev/null
        listeners=
    fi
    for step in $services; do
        [ -n "$(said_of "$(cat "$step.command")" "$step.said")" ] || continue
        failed=1
        echo "differs: $1: $(cat "$step.command"): it writes to standard error"
        sed 's/^/    said: /' "$step.said"
    done
    services=
}

# The text of this name among the cases of worked_runs.
case_text() {
    awk -v head="--- text $1" '/^(---|===|#) ?/ { inside = $0 == head; next } inside' "$top"/crates/worked_runs/data/*
}

# The cases have copies of the books of examples/.
for copy in T:engine VAN:van COMPACT:compact COMPACTG:compact-groups YEAR:year TARN:tarn ESTATE:estate; do
    if ! case_text "${copy%%:*}" | cmp -s - "$top/examples/${copy##*:}.csv"; then
        failed=1
        echo "differs: the text ${copy%%:*} of crates/worked_runs/data, from examples/${copy##*:}.csv"
    fi
done
"$top/tests/wrong-bodies.py" --check || failed=1
"$top/tests/links.py" || failed=1
for page; do
    if [ -r "$page" ]; then
        type_page "$page"
    else
        failed=1
        echo "pages: there is no page $page"
    fi
done
[ "$failed" = 0 ] && echo "pages: all $typed commands come out as they are shown"
exit "$failed"

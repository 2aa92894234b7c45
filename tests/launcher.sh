#!/bin/sh
# Tries what the launcher ./partsbook says on standard error, and that it changes nothing else: each command is run by the program
# and by the launcher, with the book from a file and through a pipe, and standard output and status have to be the same. Then the
# launcher has to have said what stands here.
#
#   tests/launcher.sh [PROGRAM]
#
# PROGRAM is the built program, crates/partsbook/out/partsbook without the word. Without a program what needs none is tried: help,
# wrong words, where faults are, and what all scripts do then. The status is 1 where something is otherwise.
top=$(cd "$(dirname "$0")/.." && pwd) || exit 1
named=$1
without=1
. "$top/tests/trial.sh"
[ -z "$program" ] || export PARTSBOOK_PROGRAM="$program"
books=$top/examples
failed=0
tried=0

wrong() { failed=1; printf 'wrong: %s\n' "$1"; }

# The words with this book, three times: standard output and status are the program's. What was said is left in $work/said.
same() { # book, words..
    book=$1
    shift
    tried=$((tried + 1))
    "$program" "$@" < "$book" > "$work/wanted"
    wanted=$?
    for way in file pipe quiet; do
        case $way in
        file) "$top/partsbook" "$@" < "$book" > "$work/found" 2> "$work/said" ;;
        pipe) cat "$book" | "$top/partsbook" "$@" > "$work/found" 2> "$work/said.pipe" ;;
        quiet) "$top/partsbook" --quiet "$@" < "$book" > "$work/found" 2> "$work/said.quiet" ;;
        esac
        found=$?
        [ "$found" = "$wanted" ] || wrong "$* ($way): status $found, and the program's is $wanted"
        cmp -s "$work/wanted" "$work/found" || wrong "$* ($way): another output"
    done
    cmp -s "$work/said" "$work/said.pipe" || { wrong "$*: a pipe is told otherwise than a file"; diff "$work/said" "$work/said.pipe"; }
    [ ! -s "$work/said.quiet" ] || wrong "$*: --quiet said something"
}

# A command without a book.
out() { "$top/partsbook" "$@" < /dev/null > "$work/found" 2> "$work/said"; }

# The last command has to have said this.
said() { # a part of a line
    grep -qF -- "$1" "$work/said" || { wrong "not said: $1"; sed 's/^/    /' "$work/said"; }
}

# The last command has to have said nothing.
silent() { [ ! -s "$work/said" ] || { wrong 'something is said where all is well'; sed 's/^/    /' "$work/said"; }; }

# A change of a book.
changed() { sed "$2" "$books/$1" > "$work/book.csv"; }

book_awk() { # book, words of its own
    file=$1
    shift
    LC_ALL=C awk -v table="$top/tools/faults.json" "$@" -f "$top/tools/sentences.awk" -f "$top/tools/book.awk" "$file"
}

# Each kind of wrong word is named, and what stands in its place.
words_awk() { LC_ALL=C awk -v table="$top/tools/faults.json" -f "$top/tools/sentences.awk" -f "$top/tools/words.awk" "$top/tools/help.txt" "$@"; }
word() { # what is said, words..
    expected=$1
    shift
    tried=$((tried + 1))
    words_awk "$@" > "$work/said"
    said "$expected"
    [ -n "$program" ] || return
    same "$books/compact.csv" "$@"
    [ "$(cut -c 1-6 "$work/wanted")" = 'usage:' ] || wrong "the program takes: $*"
    said "$expected"
}
word 'there is no command `chek`; is `check` meant?; partsbook --help has them all' chek
word 'there is no command `nonsense`; partsbook --help has them all' nonsense
word 'partsbook --help says'
word '`check` has no option `--budgt`; is `--budget` meant?' check --budgt 5
word '`check` has no option `--json`; it has --budget N and --workers N' check --json
word '`check` has no option `-v`' check -v
word '`order` has no option `--budget`' order 40 P18 --budget 5
word '`free` has no option `--workers`' free 40 P18 --workers 2
word '`--budget 0`: N is a number from 1 to 50000' check --budget 0
word '`--budget lots`: N is a number from 1 to 50000' prove --budget=lots
word '`--workers 99`: N is a number from 1 to 16' check --workers 99
word '`--budget` is given twice' check --budget 5 --budget 6
word '`--workers` is given twice' check --workers 2 --workers=3
word '`--budget` needs a number behind it' check --budget
word 'CERTFILE is missing' verify
word 'FILE is missing' compare 1
word 'DAY is missing' order
word 'RULE is missing' ask 40
word 'WORKERS and LINKS are missing' serve "$work/unmade.db" 8080
grep -q 'a new one is made' "$work/said" && wrong 'a store is told to be made where words are missing'
word 'PORT, WORKERS and LINKS are missing' serve "$work/unmade.db"
word '`99999`: PORT is a number from 1 to 65535' serve "$work/unmade.db" 99999 2 3
word '`17`: WORKERS is a number from 1 to 16' rejudge "$work/unmade.db" 1 17
word '`0`: BOOK is a number from 1 to 4294967295' rejudge "$work/unmade.db" 0 1
word '`0`: LINKS is a number from 1 to 1000000' serve "$work/unmade.db" 8080 1 0
[ ! -e "$work/unmade.db" ] || wrong 'wrong words make a store'
word '`7`: CODES is a multiple of 4 from 8 to 2000' sample 1 7 3
word '`10001`: ORDERS is a number from 0 to 10000' sample 1 8 10001
word '`4` is one word too many: partsbook sample START CODES ORDERS' sample 1 8 3 4
word '`B` is one word too many: partsbook ask DAY RULE' ask 40 A B
word '`-` is no file here: the book is read from standard input, and CERTFILE is another file' verify -
word '`-` is no file here: without it the book is read from standard input' check -
word '`P18+AWD` is a rule, and here stand codes' order 40 P18+AWD
word '`ABCDEFGHI` is no code: a code is 1 to 8 capitals and digits' order 40 ABCDEFGHI
word '`TRUE` is a word of the rules, and no code' order 40 TRUE
word '`000040` is no day' order 000040 P18
word '`2027-02-09` is no day' order 2027-02-09 P18
word '`p18`: codes are capitals and digits' order 40 p18
word 'codes are separated by blanks' order 40 P18,AWD
word "\`-x\` can't begin with -: a file of this name is ./-x" verify -- -x
word "partsbook check < $books/van.csv" check "$books/van.csv"
word "\`$books/van.csv\` is a file: the book is read from standard input, as in: partsbook order 40 < $books/van.csv" order 40 "$books/van.csv"

# The words of which nothing is wrong are right: no sentence stands for words that the program takes.
for words in 'check --budget=0000000010 --workers 02' 'check --' 'ask 40 -P18 --budget 5' 'ask 40 -- -P18' 'order 00040 -- P18' 'free --budget 5 40 P18' 'sample 4294967295 8 0'; do
    words_awk $words > "$work/found"
    [ ! -s "$work/found" ] || wrong "$words: $(cat "$work/found")"
    [ -n "$program" ] || continue
    same "$books/compact.csv" $words
    grep -q '^usage' "$work/wanted" && wrong "the program doesn't take: $words"
done

# Help of a command, wherever it is asked for before the word that ends options, with or without a program.
helped() { # words..
    tried=$((tried + 1))
    PARTSBOOK_PROGRAM=$work/none "$top/partsbook" "$@" > "$work/found" 2> "$work/said" < /dev/null
    [ $? = 0 ] || wrong "$*: no help"
    [ "$(head -n 1 "$work/found" | cut -d' ' -f1-2)" = "partsbook $1" ] || wrong "$*: the help of another command"
    silent
}
helped order --help
helped order 40 P18 --help
helped check --budgt --help
tried=$((tried + 2))
out help nonsense; [ $? = 2 ] || wrong 'help of no command has another status'; said 'there is no command `nonsense`'
out chek --help; [ $? = 2 ] || wrong 'help of no command has another status'; said 'there is no command `chek`; is `check` meant?'
for word in $("$top/partsbook" --help | sed -n 's/^  \([a-z]*\) .*/\1/p' | grep -v '^help$'); do
    "$top/partsbook" help "$word" | grep -q "^partsbook" || wrong "there is no help for $word"
done

# Where the faults of a book are: row, kind, number of a rule's fault, line and column, as tools/book.awk finds them without a program.
places() { # how engine.csv is changed, places
    tried=$((tried + 1))
    changed engine.csv "$1"
    found=$(book_awk "$work/book.csv" -v mode=faults | cut -d' ' -f1-5 | tr '\n' ';')
    [ "$found" = "$2" ] || wrong "$1: faults at $found, and not $2"
}
places '' ''
places 's/^code,M2/code,m2/; s/,A200,1/,a200,x/' '3 7 0 3 6;15 7 0 15 15;15 8 0 15 20;'
places 's/M1+-G7/"M1+-G8"/; s/^variant,V1,P1/variant,V1,P2/' '11 12 3 11 26;14 11 0 14 12;'
places 's/engine one/"engine\none"/; s/^construct,C4/construct,C2/' '10 10 0 11 11;'
places '1s/.*//' '1 3 0 2 1;'
places 's/^position/group,C9,one,M1\/M2,,\nposition/' '13 5 0 13 1;'

# Neither the launcher nor a tool takes the launcher for the program: by its own name, through a link, and as a copy.
bare=$work/bare
mkdir -p "$bare/crates"
cp -r "$top/partsbook" "$top/tools" "$top/tests" "$top/examples" "$bare"
ln -s "$top/partsbook" "$work/launcher"
for name in "$top/partsbook" "$work/launcher" "$bare/partsbook"; do
    tried=$((tried + 2))
    (export PARTSBOOK_PROGRAM="$name"; out check; [ $? = 125 ]) || wrong "$name as its own program has another status"
    said 'is the script that starts the program'
    PARTSBOOK_PROGRAM=$name timeout 60 "$top/tools/report" < "$books/engine.csv" > "$work/found" 2> "$work/said" && wrong "a tool takes $name for the program"
    said 'is a script'
done

# Without a program: what to do is said, nothing is built, and each trial and tool ends with one line and status 1.
printf '#!/bin/sh\ntouch "%s"\n' "$work/built" > "$bare/build"
chmod +x "$bare/build"
without() { (unset PARTSBOOK_PROGRAM; timeout 60 "$@" < "$books/engine.csv" > "$work/found" 2> "$work/said"); }
without "$bare/partsbook" check
[ $? = 125 ] || wrong 'without a program the launcher has another status'
said 'there is no program here yet'; said './build proves and builds it'
[ ! -e "$work/built" ] || wrong 'the launcher builds'
for trial in "$bare"/tests/*.py "$bare"/tests/*.sh "$bare"/tests/speed/*.py "$bare"/tools/*; do
    given=
    case ${trial#"$bare/"} in
    tests/speed/measure.py) given='none none 1 1 1' ;;
    tests/speed/serve.py | tests/speed/desks.py) given=none ;;
    tools/compare) given="1 $books/engine.csv" ;;
    tools/make-archive) given=$work ;;
    # This one tries what needs no program.
    tests/launcher.sh) continue ;;
    # What they are without a program, and parts of the others.
    tests/trial.* | tests/service.py | tests/desk_stream.py | tests/journal-rows.py | tests/wrong-bodies.py | tests/crates.py | tests/links.py | tests/gate-minutes.py | tests/proxy.py | tests/speed/draw_book.py | tests/speed/plot.py) continue ;;
    tools/lint) given=$books/engine.csv ;;
    tools/json) given='order 1' ;;
    tools/report) ;;
    tools/*) continue ;;
    esac
    tried=$((tried + 1))
    without "$trial" $given
    status=$?
    [ "$status" = 1 ] && [ "$(cat "$work/found" "$work/said" | wc -l)" = 1 ] && continue
    wrong "${trial#"$bare/"} without a program: status $status"
    cat "$work/found" "$work/said" | sed 's/^/    /'
done

# No trial leaves a process behind, nor a shell script its folder, whatever ends it.
cat > "$work/left.py" <<'END'
import subprocess, sys, time
sys.path.insert(0, sys.argv[1] + "/tests")
import trial
left = subprocess.Popen(["sleep", sys.argv[3]])
print("begun", flush=True)
if sys.argv[2] == "exception":
    raise ValueError
time.sleep(100)
END
cat > "$work/left.sh" <<'END'
top=$1 named= without=1
. "$top/tests/trial.sh"
way=$2
sleep "$3" &
echo "$work"
[ "$way" = exception ] && exit 7
sleep 100
END
# As a command at a terminal: it takes SIGINT, which the keyboard sends to the group of processes.
takes='import os, signal, sys; signal.signal(signal.SIGINT, signal.SIG_DFL); os.setpgid(0, 0); os.execvp(sys.argv[1], sys.argv[1:])'
# Waits until a process with these words is there, or is gone.
comes() { tries=100; while ! pgrep -f "^sleep $1" > /dev/null && [ $((tries -= 1)) -gt 0 ]; do sleep 0.1; done; }
goes() { tries=100; while pgrep -f "^sleep $1" > /dev/null || [ -d "$2" ]; do [ $((tries -= 1)) -gt 0 ] || return; sleep 0.1; done; }
for script in 'sh left.sh' 'python3 left.py'; do
    for way in KILL TERM INT HUP exception; do
        tried=$((tried + 1))
        long=$((1000000 + $$)).$tried
        (cd "$work" && exec python3 -c "$takes" $script "$top" "$way" "$long" > "$work/begun" 2> /dev/null) &
        trial=$!
        if [ "$way" != exception ]; then
            comes "$long" || wrong "$script starts nothing"
            [ "$way" = INT ] && ended=-$trial || ended=$trial
            kill -s "$way" -- "$ended"
        fi
        wait "$trial" 2> /dev/null
        [ -s "$work/begun" ] || wrong "$script doesn't begin"
        goes "$long" "$(cat "$work/begun")" || wrong "$script, ended by $way, leaves a process or its folder behind"
    done
done

# The rest needs the program.
if [ -z "$program" ]; then
    [ "$failed" = 0 ] && echo "launcher: $tried things that need no program come out as they should; there is no program, so the rest wasn't tried"
    exit "$failed"
fi


same "$books/compact.csv" check
said 'read 16 codes, 6 supplementing rules, 14 constructibility rules, 3 modules, 8 positions, 21 variants'
# Where all is well and short nothing is said.
for words in 'order 40 P18 AWD AT8' 'free 40 P18' 'why 40 P18' 'ask 40 P18' 'days P18'; do
    same "$books/compact.csv" $words
    silent
done
same "$books/engine.csv" verify "$books/engine.cert"
silent
same "$books/compact-groups.csv" check
said '5 constructibility rules, 4 groups,'
same "$books/van.csv" prove
said 'no certificate: what was written is the report'
same "$books/engine.csv" prove
same "$books/estate.csv" supplements --budget 5
same "$books/tarn.csv" check
same "$books/engine.csv" verify "$books/engine.cert"
same "$books/engine.csv" compare 1 "$books/engine.csv"
said 'only cars that both books allow were compared'
same "$books/engine.csv" sample 1 8 3

# A quote that is never closed, and two that hide what stands between them. The counts are those of a book without these rows.
changed compact.csv 's/all-wheel drive/"&/'
same "$work/book.csv" check
said 'read 8 codes, 0 supplementing rules'
said 'line 9, column 10: the quote that opens here is never closed: lines 9 to 69 are one field, and no records'
same "$work/book.csv" order 40 P18
said 'read 8 codes, 0 supplementing rules'
said 'lines 9 to 69 are one field, and no records'
changed compact.csv 's/all-wheel drive/"&/; s/sunroof/&"/'
same "$work/book.csv" check
said 'lines 9 to 13 are one field in quotes'
changed compact.csv 's/all-wheel drive/"all "" wheel, drive"/'
same "$work/book.csv" check
grep -q 'quote' "$work/said" && wrong 'a quoted text is taken for a fault'
changed compact.csv 's/all-wheel drive/"all-wheel\ndrive"/'
same "$work/book.csv" order 40 P18
said 'line 9, column 10: lines 9 to 10 are one text'

# What a book is in place of a book.
tr , ';' < "$books/van.csv" > "$work/book.csv"; same "$work/book.csv" check; said 'separated by semicolons'
tr , '\t' < "$books/van.csv" > "$work/book.csv"; same "$work/book.csv" check; said 'separated by tabs'
iconv -t UTF-16 < "$books/van.csv" > "$work/book.csv"; same "$work/book.csv" check; said 'the text is UTF-16'
printf 'book,T,1,10\ncode,M1,gr\374n\n' > "$work/book.csv"; same "$work/book.csv" check; said 'line 2 is the first with such a byte'
changed van.csv 's/^book/BOOK/'; same "$work/book.csv" check; said 'has to be `book`, in small letters'
{ echo 'kind,name,x'; cat "$books/van.csv"; } > "$work/book.csv"; same "$work/book.csv" check; said 'without a header row'
same "$books/engine.cert" check; said 'this is a certificate'
: > "$work/book.csv"; same "$work/book.csv" check; said 'no book came: standard input is empty'
printf 'PK\003\004\024\000\377' > "$work/book.csv"; same "$work/book.csv" check; said 'this is a spreadsheet and no text'
tried=$((tried + 1)); out order 40 P18; said 'no book came: it is read from standard input'
head -c 1048577 /dev/zero > "$work/book.csv"; same "$work/book.csv" check; said 'more than 1,048,576 bytes'
printf '\357\273\277' > "$work/book.csv"; tr '\n' '\r' < "$books/van.csv" >> "$work/book.csv"; same "$work/book.csv" check; said 'read 7 codes'

# Each kind of fault, with its line and its record.
fault() { # how engine.csv is changed, the fault, what is said
    changed engine.csv "$1"
    same "$work/book.csv" check
    [ "$(cat "$work/wanted")" = "$2" ] || wrong "$1: $(cat "$work/wanted"), and not $2"
    said "$3"
}
fault '2s/.*/book,T,1,2/' 'book fault 2 4' 'a book has one `book` record'
fault 's/^module,/Module,/' 'book fault 12 5' 'has to be `module`, in small letters'
fault 's/^construct,C1,.*/group,C1,one,M1\/M2,,/' 'book fault 7 5' 'needs a book of form 2'
fault 's/engine one/engine, one/' 'book fault 2 6' 'a `code` record has 3 fields; this one has 4'
fault 's/^code,M2/code,m2/' 'book fault 3 7' '`m2` has small letters'
fault 's/,A100,1,/,A100,0,/' 'book fault 14 8' 'line 14, column 20: `0` is no quantity: a quantity is a number of 1 to 5 digits from 1 to 999'
fault 's/^variant,V1.*/variant,V1,P1,A100,1,M1,9,3/' 'book fault 14 9' 'line 14: variant,V1,P1,A100,1,M1,9,3'
fault 's/^construct,C4/construct,C2/' 'book fault 10 10' 'is taken by line 8'
fault 's/^variant,V1,P1/variant,V1,P2/' 'book fault 14 11' 'there is no position `P2`'
fault 's/M1+-G7/M1+-G8/' 'book fault 11 12 3 4' 'line 11, column 25: in the rule `M1+-G8`, at byte 5: `G8` is no code of the book; is `G5` or `G7` meant?'
fault 's/M1+-G7/M1+-/' 'book fault 11 12 4 4' 'at its end: a code is missing'
fault 's/M1+-G7/M1+(-G7/' 'book fault 11 12 4 7' 'at its end: a `)` is missing'
fault 's/^construct,C2,M1/construct,C2,m1/; s/,A200,/,a200,/' 'book fault 8 7' '1 more like this: tools/lint tells each of them'
# A text of three lines moves the lines of what follows, and no row.
printf 'book,T,1,10\ncode,M1,"one\ntwo\nthree"\ncode,m2,x\n' > "$work/book.csv"; same "$work/book.csv" check; said 'line 5: code,m2,x'

# Orders, words, certificates and files.
same "$books/compact.csv" order 400 P18; said 'the term of the book, which is 1 to 365'
same "$books/compact.csv" order 40 P18 XX; said 'the book has no code `XX`'
same "$books/compact.csv" order 40 P18 P18; said 'the code `P18` is ordered twice'
sed 's/^close 13 21/close 13 20/' "$books/engine.cert" > "$work/wrong.cert"
same "$books/engine.csv" verify "$work/wrong.cert"; said 'wrong.cert, line 6: question 13 is not closed'
same "$books/engine.csv" verify "$books/van.check.txt"; said 'is a report and no certificate'
same "$books/engine.csv" verify "$work/none"; said "can't be read, or isn't there"
changed engine.csv 's/M1+-G7/M1+-G8/'
same "$books/engine.csv" compare 1 "$work/book.csv"; said "the fault is in $work/book.csv"
same "$work/book.csv" compare 1 "$books/engine.csv"; grep -q 'the fault is in' "$work/said" && wrong 'a fault of the first book is told of the second'
changed engine.csv 's/engine two/"&/'
same "$books/engine.csv" compare --budget 5 1 "$work/book.csv"; said "$work/book.csv: line 3, column 9: the quote that opens here is never closed"
same "$books/compact.csv" order 40 -- P18 XX; said 'the book has no code `XX`'
same "$books/engine.csv" compare 1 --budget=5 "$work/none"; said "the file $work/none can't be read"
same "$books/engine.csv" compare 2000 "$books/engine.csv"; said "day 2000 isn't in the term of book 1"
same "$books/compact.csv" order 40 P81; said 'the book has no code `P81`; is `P18` meant?'
same "$books/compact.csv" ask 40 P18+-P81; said 'in the rule `P18+-P81`, at byte 6: `P81` is no code of the book; is `P18` meant?'

# How large a check is, as the launcher shows it on a terminal: the slices are those of the report, and the questions those that the
# program counts where there are too many.
size() { book_awk "$1" -v mode=size; }
for book in "$books"/*.csv; do
    # Requirements aren't a book.
    grep -qE '^(require|uses),' "$book" && continue
    slices=$("$program" check < "$book" | grep -c '^slice')
    [ "$(size "$book" | cut -d' ' -f1)" = "$slices" ] || wrong "$book: $(size "$book") for $slices slices"
done
awk 'BEGIN {
    print "book,T,5,90\ncode,A,a\ncode,B,b\nconstruct,C,*,A,,4\nconstruct,D,*,A,91,"
    for (p = 0; p < 12; p++) {
        print "position,P" p ",," (p % 2 ? "mandatory" : "optional") "," (p == 3 ? "5," : ",")
        for (v = 0; v < 199; v++) print "variant,V" p "N" v ",P" p ",X,1,A,,"
    }
}' > "$work/book.csv"
same "$work/book.csv" check; said 'slice 0, counted from 0, has'
[ "$(cat "$work/wanted")" = "limit questions 0 $(size "$work/book.csv" | cut -d' ' -f2)" ] || wrong "the questions are $(cat "$work/wanted"), and not $(size "$work/book.csv")"

# The questions of supplements: 900 rules, of which each names the codes of the next 256.
awk 'BEGIN {
    sign = "ABCDEFGHIJKLMNOPQRSTUVWXYZ0123456789"
    for (r = 0; r < 900; r++) name[r] = substr(sign, 1 + int(r / 36), 1) substr(sign, 1 + r % 36, 1)
    print "book,T,1,10"
    for (r = 0; r < 900; r++) print "code," name[r] ","
    for (r = 0; r < 900; r++) {
        rule = name[(r + 1) % 900]
        for (n = 2; n <= 256; n++) rule = rule "/" name[(r + n) % 900]
        print "supplement,S" r ",1," name[r] "," rule ",,"
    }
}' > "$work/book.csv"
tried=$((tried + 1))
"$program" supplements < "$work/book.csv" > "$work/wanted"
asked() { book_awk "$1" -v mode=size -v asked=supplements | cut -d' ' -f2; }
[ "$(cat "$work/wanted")" = "limit questions 0 $(asked "$work/book.csv")" ] || wrong "the questions of supplements are $(cat "$work/wanted"), and not $(asked "$work/book.csv")"

# Long work on a terminal, over a program that only waits: a shell, which runs the file that is called as the command is. `desk` has
# started when it reads its input.
on_terminal() { # name, words..
    name=$1
    shift
    tried=$((tried + 1))
    echo 'sleep 4; read -r _' > "$work/$1"
    (cd "$work" && { sleep 8; echo; } | PARTSBOOK_PROGRAM=$work/slow script -qefc "$top/partsbook $* < ${fed:-$books/estate.csv}" /dev/null > "$work/shown.$name" 2>&1) &
}
shown() { # name, what
    tr '\r' '\n' < "$work/shown.$1" | grep -qF -- "$2" || { wrong "$1 on a terminal didn't show: $2"; tr '\r' '\n' < "$work/shown.$1" | sed 's/^/    /'; }
}
if command -v script > /dev/null; then
    cp "$(readlink -f /bin/sh)" "$work/slow"
    printf 'require,R1,TRUE,,\nrequire,R2,TRUE,,\n' > "$work/wants.csv"
    echo 'a store' > "$work/kept.db"
    for word in check prove supplements days; do on_terminal "$word" "$word"; done
    on_terminal require require wants.csv
    on_terminal changes changes "$books/tarn.csv"
    on_terminal quiet --quiet check
    fed=/dev/null on_terminal rejudge rejudge kept.db 1 1
    fed=/dev/stdin on_terminal desk desk kept.db
    wait
    shown check 'check of 120 questions in 3 slices, 3 s'
    shown prove 'prove of 21 questions in 3 slices, 3 s'
    shown supplements "supplements of $(asked "$books/estate.csv") questions in 3 slices, 3 s"
    shown days 'days of 3 slices, 3 s'
    shown require 'require of 2 requirements in 3 slices, 3 s'
    shown changes 'changes of 3 slices and, in the next book, 4, 3 s'
    shown rejudge 'rejudge over 8 bytes, 3 s'
    shown desk 'desk over 8 bytes, 3 s'
    shown desk 'the desk has started after '
    [ ! -s "$work/shown.quiet" ] || wrong "--quiet showed something on a terminal: $(cat "$work/shown.quiet")"
else
    echo 'there is no script (util-linux): long work on a terminal was not tried'
fi

# Commands that this program may not have yet.
has() { "$program" "$@" < "$books/engine.csv" > "$work/found"; [ $? != 2 ]; }
if has days; then
    same "$books/tarn.csv" days LIFE MGB D20 CWH
    same "$books/engine.csv" days G5 XX; said 'the book has no code `XX`'
    changed engine.csv 's/M1+-G7/M1+-G8/'
    tried=$((tried + 2))
    out impact "$work/impact.db" "$work/book.csv" 1; said 'is no code of the book'
    out impact "$work/impact.db" "$work/none" 1; said "the file $work/none can't be read"
fi
if has changes "$books/engine.csv"; then
    same "$books/engine.csv" changes "$books/engine.csv"; said "$books/engine.csv: read 5 codes"
    changed engine.csv 's/M1+-G7/M1+-G8/'
    same "$books/engine.csv" changes "$work/book.csv"; said "the fault is in $work/book.csv"
    same "$books/engine.csv" changes "$work/none"; said "the file $work/none can't be read"
fi
if has require "$work/none"; then
    same "$books/tarn.csv" require "$books/tarn-laws.csv"
    same "$books/engine.csv" require "$work/none"; said "the file $work/none can't be read"
    printf 'require,R1,M1/M2,,\nuses,R2,A100,M1/M3,,\n' > "$work/wants.csv"
    same "$books/engine.csv" require "$work/wants.csv"; said 'wants.csv, line 2: uses,R2,A100,M1/M3,,'; said 'in the rule `M1/M3`, at byte 4: `M3` is no code of the book'
fi

# Stores, and who holds one.
tried=$((tried + 4))
out rejudge "$work/new.db" 1 1; said 'a new one is made'; said 'the store has no book 1'
out desk "$work/none/x.db"; said "there is no folder $work/none"
(sleep 5 | "$program" desk "$work/new.db" > /dev/null) &
sleep 0.5
out desk "$work/new.db"; [ "$(cat "$work/found")" = 'store fault' ] || wrong 'two desks have one store'; said 'is held by process'
wait
"$program" desk "$work/old.db" < "$books/desk.http" > "$work/found"
sqlite3 "$work/old.db" "update orders set codes = 'M2'"
out desk "$work/old.db"; said "the order HALL1|7|1|1|M2 isn't right"

# A store that is made by hand is its user's alone; who starts a desk as root is told so, and where a journal is more than half full.
tried=$((tried + 3))
for kind in db journal; do
    (umask 022; exec "$top/partsbook" --quiet desk "$work/own.$kind" < /dev/null > "$work/found")
    [ "$(stat -c %a "$work/own.$kind")" = 600 ] || wrong "own.$kind is made with mode $(stat -c %a "$work/own.$kind")"
done
truncate -s 2147483649 "$work/large.journal"
PARTSBOOK_PROGRAM=$(command -v true) "$top/partsbook" desk "$work/large.journal" < /dev/null 2> "$work/said"
said 'has 2147483649 of 4294967296 bytes'
[ "$(id -u)" != 0 ] || said 'it runs as root'
rm "$work/large.journal"

# A service says when it listens, and where another has its port; a kill of the launcher ends the program.
port=$((20000 + $$ % 20000))
"$top/partsbook" serve "$work/serve.db" "$port" 1 1000 > /dev/null 2> "$work/said" < /dev/null &
launcher=$!
tries=50
while ! grep -q listens "$work/said" && [ $((tries -= 1)) -gt 0 ]; do sleep 0.2; done
said "listens at 127.0.0.1:$port"
served=$(sed -n 's/.*process //p' "$work/said")
out serve "$work/other.db" "$port" 1 1; said "port $port could not be opened"
kill -9 "$launcher"
wait "$launcher" 2> /dev/null
sleep 0.5
readlink -q "/proc/$served/exe" > /dev/null && wrong 'the program goes on behind a killed launcher'

# A closed standard stream: a store doesn't stand in its place, so nothing that is told is written into it.
printf 'GET /orders/1 HTTP/1.1\r\nhost: desk\r\nx-caller: ANNA\r\n\r\n' > "$work/asked"
"$top/partsbook" --quiet desk "$work/closed.journal" < "$work/asked" >&-
[ $? = 5 ] || wrong 'a closed output has another status than 5'
grep -q HTTP "$work/closed.journal" && wrong 'what was told is in the store'
"$top/partsbook" --quiet desk "$work/closed.journal" <&- > "$work/found"
[ $? = 4 ] || wrong 'a closed input has another status than 4'

# Through a link, in another folder, and help.
ln -s "$top/partsbook" "$work/linked"
[ "$(cd "$work" && ./linked --quiet order 40 E60 TOW < "$books/compact.csv")" = 'refused ETOW' ] || wrong 'through a symbolic link it finds no program'
"$top/partsbook" --version | grep -q '^partsbook' || wrong 'there is no version'
(PARTSBOOK_PROGRAM=$work/none; out check; [ $? = 125 ] || wrong 'a program that is not there has another status'); said "there is no program $work/none"
# One standard input for many commands: the second one isn't told of the first one's bytes.
{ read -r _; "$top/partsbook" check 2> "$work/said" > "$work/found"; } < "$books/van.csv"
grep -q 'partsbook: read' "$work/said" && wrong 'a book is counted whose first line another command has read'
said 'another command has read from this book before'

[ "$failed" = 0 ] && echo "launcher: $tried commands come out as the program's, and are told as they should be"
exit "$failed"

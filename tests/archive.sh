#!/bin/sh
# Tries the archive to install and the package of Debian: makes both twice, which has to give the same bytes, unpacks them, looks at
# their sums, runs the command of the package, and completes a word as bash does; then, of the archive,
# types the pages README.md and docs/TOOLS.md there, without the kit on the path, and places an order in the page of the archive in a
# browser, if one is there. Then the launcher is called through a link from another folder, and the manual page is shown.
#
#   tests/archive.sh [PROGRAM]
#
# PROGRAM is the built program, crates/partsbook/out/partsbook without the word. It needs what tests/pages.sh needs for these pages.
top=$(cd "$(dirname "$0")/.." && pwd) || exit 1
named=$1
. "$top/tests/trial.sh"
[ -z "$1" ] || export PARTSBOOK_PROGRAM="$program"
failed=0

say() {
    printf '%s: %s\n' "$1" "$2"
    [ "$1" = ok ] || failed=1
}

holds() { # what, command..
    what=$1
    shift
    if "$@" > "$work/said" 2>&1; then say ok "$what"; else
        say wrong "$what"
        sed 's/^/    /' "$work/said"
    fi
}

mkdir "$work/one" "$work/two" "$work/empty"
"$top/tools/make-archive" "$work/one" > /dev/null || exit 1
"$top/tools/make-archive" "$work/two" > /dev/null || exit 1
archive=$(basename "$work"/one/*.tar.gz)
holds "$archive, $(wc -c < "$work/one/$archive") bytes, is made twice the same" cmp "$work/one/$archive" "$work/two/$archive"
tar --extract --gzip --file="$work/one/$archive" --directory="$work/empty" || exit 1
home=$work/empty/${archive%.tar.gz}
holds 'one folder is in it' [ "$(ls "$work/empty")" = "${archive%.tar.gz}" ]
(cd "$home" && find . -type f ! -name SHA256SUMS | wc -l) > "$work/count"
holds "each of its $(cat "$work/count") files has its sum" sh -c "cd '$home' && sha256sum --check --quiet SHA256SUMS && [ \$(wc -l < SHA256SUMS) = $(cat "$work/count") ]"
holds 'the program is the one that was built' cmp "$program" "$home/libexec/partsbook"
# The kit is not on the path, nor is the program of the clone known.
unset PARTSBOOK_PROGRAM
path=
IFS=:
for part in $PATH; do [ -x "$part/rt" ] || path=${path:+$path:}$part; done
unset IFS
PATH=$path
holds 'there is no rt' sh -c '! command -v rt'
first=$work/first.md
sed '/^## Get it/,$d' "$home/README.md" > "$first"
export PAGES_FROM="$home"
holds "README's first screen comes out as it is shown" "$top/tests/pages.sh" "$program" "$first"
holds 'README.md and docs/TOOLS.md do' "$top/tests/pages.sh" "$program" "$home/README.md" "$home/docs/TOOLS.md"
holds 'the proxy finds each file of its page' sh -c "cd '$home/examples/service' && for file in \$(sed -n 's/.* file \\(page[^ ]*\\) .*/\\1/p' haproxy.cfg); do [ -s \"\$file\" ] || { echo \"\$file\"; exit 1; }; done"
if command -v haproxy > /dev/null && command -v chromedriver > /dev/null; then
    holds 'an order is placed in its page' env PARTSBOOK_PROGRAM="$home/libexec/partsbook" "$top/tests/page.py" order
fi
mkdir "$work/bin" "$work/elsewhere"
ln -s "$home/partsbook" "$work/bin/partsbook"
holds 'through a link, from another folder' sh -c "cd '$work/elsewhere' && [ \"\$('$work/bin/partsbook' --quiet order 40 E60 TOW < '$home/examples/compact.csv')\" = 'refused ETOW' ]"
holds 'it says which version it is' sh -c "'$work/bin/partsbook' --version | grep -q '^partsbook [0-9.]*, of the sources at commit'"
holds 'its manual page has each command' sh -c "for word in order check serve; do grep -q \"^.SS partsbook \$word\" '$home/share/man/man1/partsbook.1' || exit 1; done"
if command -v dpkg-deb > /dev/null; then
    deb=$(basename "$work"/one/*.deb)
    holds "$deb, $(wc -c < "$work/one/$deb") bytes, is made twice the same" cmp "$work/one/$deb" "$work/two/$deb"
    holds 'it can be unpacked' dpkg-deb --extract "$work/one/$deb" "$work/installed"
    installed=$work/installed/usr
    holds 'each of its files has its sum' sh -c "cd '$installed/lib/partsbook' && sha256sum --check --quiet SHA256SUMS && [ \$(wc -l < SHA256SUMS) = \$(find . -type f ! -name SHA256SUMS | wc -l) ]"
    holds 'its files are those of the archive' sh -c "cd '$installed/lib/partsbook' && find . -type f ! -name SHA256SUMS -exec cmp {} '$home/'{} \;"
    holds 'its command answers' sh -c "[ \"\$('$installed/bin/partsbook' --quiet order 40 E60 TOW < '$home/examples/compact.csv')\" = 'refused ETOW' ]"
    holds 'and names its pages where they are' sh -c "cd '$work/elsewhere' && printf 'book,T,1,9\ncode,m,x\n' | '$installed/bin/partsbook' check 2>&1 | grep -q '$installed/lib/partsbook/docs/BOOK-FORMAT.md'"
    holds 'it needs what it names' sh -c "dpkg-deb --field '$work/one/$deb' Depends | grep -q '^libc6, util-linux$'"
    holds 'its manual page is that of the archive' sh -c "gzip --decompress --stdout '$installed/share/man/man1/partsbook.1.gz' | cmp - '$home/share/man/man1/partsbook.1'"
    holds 'its completion too' cmp "$installed/share/bash-completion/completions/partsbook" "$home/share/bash-completion/completions/partsbook"
fi
# What bash completes: the words before, and what comes out.
cat > "$work/complete.sh" << 'END'
. "$1/share/bash-completion/completions/partsbook"
cd "$1/examples" || exit 1
try() { # what comes out, words..
    wanted=$1
    shift
    COMP_WORDS=("$@") COMP_CWORD=$(($# - 1)) COMPREPLY=()
    _partsbook
    [ "${COMPREPLY[*]}" = "$wanted" ] || { echo "$*: ${COMPREPLY[*]}, and not $wanted"; exit 1; }
}
: > 'a book.csv'
try 'check changes' partsbook ch
try 'prove' partsbook --quiet pr
try '--help --budget --workers' partsbook check ''
try '--budget' partsbook free 40 --b
try 'engine.csv engine.cert' partsbook verify engine.c
try 'a book.csv' partsbook compare 1 'a b'
try '--help --budget --workers' partsbook compare ''
try 'tarn-laws.csv' partsbook require --budget 5 tarn-
try 'supplements' partsbook help su
rm 'a book.csv'
END
holds 'bash completes commands, options and files' bash "$work/complete.sh" "$home"
if command -v man > /dev/null; then
    holds 'man shows it without a warning' sh -c "[ -z \"\$(LC_ALL=C.UTF-8 MANROFFSEQ= man --warnings -l -Tutf8 '$home/share/man/man1/partsbook.1' 2>&1 > /dev/null)\" ]"
fi
exit "$failed"

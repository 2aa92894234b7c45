# What each trial that is a shell script begins with, which has set `top` to the folder of the sources, and `named` to the program
# that it was given or to nothing: $program is the program, and $work an empty folder. Without a program the trial ends with one
# line and status 1, or, where it has set `without`, $program is empty. Whatever ends the trial, no process that it has started goes on, and the folder is removed (tests/guard).
program=$(realpath -m "${named:-${PARTSBOOK_PROGRAM:-$top/crates/partsbook/out/partsbook}}")
if [ ! -f "$program" ] || [ ! -x "$program" ] || [ "$(head -c 2 "$program" | tr -d '\0')" = '#!' ]; then
    if [ -z "$without" ]; then
        echo "$(basename "$0" .sh): there is no program $program: ./build makes it" >&2
        exit 1
    fi
    program=
fi
work=$(mktemp -d) || exit 1
trap 'rm -rf "$work"' EXIT
mark=$$.$(date +%s%N)
(env -u PARTSBOOK_TRIAL setsid "$top/tests/guard" $$ "$mark" "$work" < /dev/null > /dev/null 2>&1 &)
PARTSBOOK_TRIAL=${PARTSBOOK_TRIAL:+$PARTSBOOK_TRIAL }$mark
export PARTSBOOK_TRIAL

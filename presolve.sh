#!/bin/sh
# Presolves records and shows the answer; see the usage below.
set -eu

usage() {
    cat <<'END'
usage: presolve.sh [RECORDS]
       presolve.sh --tally RECORDS..

Presolves the file RECORDS, standard input where it is -, or the shipped example where none is named, and shows the answer:
the grade, a line `x VARIABLE VALUE` for each forced variable, and `end COUNT`; or `refused N`, with the reason on standard error.
tools/records pack makes records of a plain text field.

With --tally it reads the fields of all files, one after another, and shows one line for all: how many were read, are exact, inexact
and refused, how many of their variables are given, forced to 0, forced to 1 and free at the end, and the forced per thousand of those
not given, as a whole number and its remainder, or a dash. A malformed record ends the reading; `refused N` stands before the line then.

Exit status: 0 answered, 1 refused, 2 nothing to presolve or no program to do it.
END
}

fail() {
    echo "presolve.sh: $1" >&2
    exit 2
}

wrong_usage() {
    usage >&2
    exit 2
}

root=$(cd "$(dirname "$0")" && pwd)

need_rt() {
    command -v rt >/dev/null || fail 'there is no rt here: it is the command of the Rattle kit, which README.md names, and makes the program'
}

can_read() { # FILE
    [ ! -d "$1" ] || fail "$1 is a folder, not a file of records"
    [ -r "$1" ] || fail "there is no file $1 that can be read"
}

# Says in words why the program refuses.
explain() { # NUMBER
    why=$(sed -n "s/^$1 //p" "$root/tools/refusals")
    echo "presolve.sh: refused: ${why:-there are no words for $1}" >&2
}

# Shows the tally of the fields of all files, and ends with status 1 where the reading was refused.
tally() { # FILE..
    [ $# -ge 1 ] || wrong_usage
    for file in "$@"; do
        [ "$file" = - ] || can_read "$file"
    done
    need_rt
    answer=$(cat -- "$@" | (cd "$root" && tools/run presolve tally)) || fail 'the program gave no answer'
    printf '%s\n' "$answer"
    case $answer in
    refused*)
        explain "$(printf '%s\n' "$answer" | sed -n 's/^refused //p')"
        exit 1
        ;;
    esac
}

if [ "${1-}" = --tally ]; then
    shift
    tally "$@"
    exit
fi
[ $# -le 1 ] || wrong_usage
records=${1-example/plan.rec}
case $records in
-h | --help)
    usage
    exit 0
    ;;
- | /*) ;;
'' | -*) wrong_usage ;;
*) [ $# -eq 0 ] || records=$PWD/$records ;;
esac
cd "$root"
need_rt

# Shows the answer of the program on the records of a file, and ends with status 1 where it refuses; of 14 to 17 it says which entry is at fault.
present() { # FILE
    answer=$(tools/run presolve <"$1") || fail 'the program gave no answer'
    printf '%s\n' "$answer"
    number=${answer#refused }
    [ "$number" != "$answer" ] || return 0
    explain "$number"
    case $number in
    14 | 15 | 16 | 17) echo "presolve.sh: $(tools/fault <"$1")" >&2 ;;
    esac
    exit 1
}

if [ "$records" = - ]; then
    room=$(mktemp -d)
    trap 'rm -rf "$room"' EXIT
    cat >"$room/records"
    present "$room/records"
    exit
fi
can_read "$records"
[ $# -eq 1 ] || echo "The flush plan of example/plan.txt:"
present "$records"
if [ $# -eq 0 ] && command -v python3 >/dev/null; then
    echo "With the groups' names, where 1 is the second window:"
    printf '%s\n' "$answer" | tools/records answer example/plan.txt
fi

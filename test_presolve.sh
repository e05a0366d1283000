#!/bin/sh
# Runs the program presolve on inputs at its edge, and presolve.sh on what a user may give it.
# The last line is `N passed, M failed`.
set -eu
cd "$(dirname "$0")"
passed=0 failed=0
room=$(mktemp -d)
trap 'rm -rf "$room"' EXIT

pass() { echo "presolve: $1: passed"; passed=$((passed + 1)); }
fail() { echo "presolve: $1: FAILED"; failed=$((failed + 1)); }

# Runs a command, holds what it prints to the lines given and its status to the one given, and counts it; what it says stays in $room/said.
holds() { # NAME STATUS LINES COMMAND..
    what=$1 status=$2
    printf '%s' "$3" >"$room/wanted"
    shift 3
    ended=0
    "$@" >"$room/got" 2>"$room/said" || ended=$?
    if [ "$ended" -eq "$status" ] && cmp -s "$room/got" "$room/wanted"; then
        pass "$what"
    else
        echo "status $ended, and not $status; printed:"
        head -n 5 "$room/got"
        head -n 5 "$room/said"
        fail "$what"
    fi
}

# Holds what the command before said on standard error to a text that is to stand in it.
says() { # NAME TEXT
    if grep -qF -e "$2" "$room/said"; then pass "$1"; else head -n 5 "$room/said"; fail "$1"; fi
}

# ---- records
octal() { octal=$(($1 / 64))$(($1 / 8 % 8))$(($1 % 8)); }

# the weight 0
VC() { printf 'VC\000\000\000\000\000\000\000\000'; }

# an entry of weight 1
QE() { # ROW COLUMN
    octal "$1"
    row_byte=$octal
    octal "$2"
    printf "QE\\$row_byte\\000\\$octal\\000\\000\\000\\000\\000\\000\\000\\360\\077"
}

FX() { # VARIABLE VALUE
    octal "$1"
    printf "FX\\$octal\\000\\00$2"
}

# As many records as the format has room for: 256 weights, 1,024 entries in order, and a value for each variable.
longest() {
    i=0
    while [ "$i" -lt 256 ]; do VC; i=$((i + 1)); done
    column=0 count=0
    while [ "$count" -lt 1024 ]; do
        row=0
        while [ "$row" -lt 5 ] && [ "$count" -lt 1024 ]; do
            if [ "$row" -ne "$column" ]; then
                QE "$row" "$column"
                count=$((count + 1))
            fi
            row=$((row + 1))
        done
        column=$((column + 1))
    done
    i=0
    while [ "$i" -lt 256 ]; do FX "$i" $((i % 2)); i=$((i + 1)); done
    printf ZZ
}

on() { # INPUT COMMAND..
    input=$1
    shift
    "$@" <"$room/$input"
}

longest >"$room/longest"
{ cat "$room/longest"; printf '\n'; } >"$room/longer"
{ cat "$room/longest"; head -c 100000 /dev/zero; } >"$room/far_longer"
{ VC; printf ZZ; } >"$room/small"
{ cat "$room/small"; printf '\n'; } >"$room/after"
printf ZZ >"$room/ends"
: >"$room/empty"
{ VC; QE 0 0; printf ZZ; } >"$room/diagonal"
{ VC; VC; QE 0 1; QE 2 0; printf ZZ; } >"$room/row"
{ VC; VC; QE 0 2; printf ZZ; } >"$room/column"
{ VC; VC; QE 0 1; QE 0 1; printf ZZ; } >"$room/repeat"
{ VC; VC; QE 0 1; QE 1 0; printf ZZ; } >"$room/back"

nothing_forced='grade exact
end 0
'
malformed='refused 11
'

# ---- the program
holds 'the longest input has 18,178 bytes' 0 '18178
' on longest sh -c 'echo $(($(wc -c)))'
holds 'the longest input' 0 "$nothing_forced" on longest tools/run presolve
holds 'one byte more' 0 "$malformed" on longer tools/run presolve
holds 'far more' 0 "$malformed" on far_longer tools/run presolve
holds 'a small input' 0 "$nothing_forced" on small tools/run presolve
holds 'a byte after ZZ' 0 "$malformed" on after tools/run presolve
holds 'the end alone' 0 "$nothing_forced" on ends tools/run presolve
holds 'an empty input' 0 "$malformed" on empty tools/run presolve
holds 'the input of crates/presolve' 0 "$(cat crates/presolve/stdout)
" tools/run presolve <crates/presolve/stdin

# ---- the tally
shipped() {
    cmp "$room/inputs" crates/tally_cases/stdin && cmp "$room/answers" crates/tally_cases/stdout &&
        cmp "$room/input" crates/presolve_tally/stdin && cmp "$room/answer" crates/presolve_tally/stdout
}
{ cat "$room/small" "$room/small" "$room/diagonal" "$room/longest"; } >"$room/fleet"
fleet='3 3 0 1 256 0 0 2 0 0
'
holds 'a tally' 0 "$fleet" on fleet tools/run presolve tally
holds 'a tally of none' 0 '0 0 0 0 0 0 0 0 -
' on empty tools/run presolve tally
holds 'a tally of more than the buffer holds' 0 '40 40 0 0 10240 0 0 0 -
' sh -c 'i=0; while [ $i -lt 40 ]; do cat "$1/longest"; i=$((i + 1)); done | tools/run presolve tally' - "$room"
holds 'a tally that ends at a malformed record' 0 'refused 11
1 1 0 1 0 0 0 1 0 0
' on after tools/run presolve tally
holds 'any other argument is as none' 0 "$nothing_forced" on small tools/run presolve fields
holds 'a longer one too' 0 "$nothing_forced" on small tools/run presolve tallying
holds 'and an empty one' 0 "$nothing_forced" on small tools/run presolve ''
if command -v python3 >/dev/null; then
    holds 'the cases of tools/tally_cases are written' 0 '' python3 tools/tally_cases "$room/inputs" "$room/answers" "$room/input" "$room/answer"
    holds 'those that are shipped are these' 0 '' shipped
    what='a tally is the sum over the fields alone, for every cut'
    if python3 tools/test_tally.py 1 12 40 >"$room/sums" 2>&1; then pass "$what"; else cat "$room/sums"; fail "$what"; fi
else
    echo "There is no python3 here: the cases of tools/tally_cases, and the sum over the fields alone, are passed over."
fi

# ---- presolve.sh
usage=$(./presolve.sh --help)
holds 'the usage' 0 "$usage
" ./presolve.sh -h
holds 'too many arguments' 2 '' ./presolve.sh "$room/small" "$room/small"
says 'too many arguments show the usage' 'usage: presolve.sh [RECORDS]'
holds 'a tally of files' 0 "$fleet" ./presolve.sh --tally "$room/small" "$room/small" "$room/diagonal" "$room/longest"
holds 'a tally of a malformed file' 1 'refused 11
1 1 0 1 0 0 0 1 0 0
' ./presolve.sh --tally "$room/after" "$room/small"
says 'which is told in words' 'the input is not well-formed'
holds 'a tally of standard input between two files' 0 '3 3 0 0 0 0 0 2 0 0
' on small ./presolve.sh --tally "$room/ends" - "$room/small"
holds 'a tally of no file' 2 '' ./presolve.sh --tally
holds 'a tally of a file that is not there' 2 '' ./presolve.sh --tally "$room/none"
holds 'an unknown option' 2 '' ./presolve.sh --all
holds 'no such file' 2 '' ./presolve.sh "$room/none"
says 'no such file is told by its name' "there is no file $room/none"
holds 'a folder' 2 '' ./presolve.sh "$room"
holds 'a file' 0 "$nothing_forced" ./presolve.sh "$room/small"
holds 'standard input' 0 "$nothing_forced" on small ./presolve.sh -
holds 'a refusal' 1 'refused 4
' ./presolve.sh "$room/diagonal"
says 'a refusal is told in words' 'an entry is on the diagonal'
holds 'a row that is no variable' 1 'refused 14
' ./presolve.sh "$room/row"
says 'its entry is told' 'entry 1, from 0, at byte 34: its row 2 is not below 2'
holds 'a column that is none' 1 'refused 15
' on column ./presolve.sh -
says 'its entry too' 'entry 0, from 0, at byte 20: its column 2 is not below 2'
holds 'an entry at the place of the one before' 1 'refused 16
' ./presolve.sh "$room/repeat"
says 'its entry too' 'entry 1, from 0, at byte 34: it has the same place as the entry before, row 0 and column 1'
holds 'an entry out of order' 1 'refused 17
' ./presolve.sh "$room/back"
says 'its entry too' 'entry 1, from 0, at byte 34: row 1 and column 0 stand after row 0 and column 1'
holds 'a refusal of standard input' 1 "$malformed" on empty ./presolve.sh -
says 'and in words too' 'the input is not well-formed'
here=$PWD
in_room() { (cd "$room" && "$here/presolve.sh" "$@"); }
holds 'a file named from another folder' 0 "$nothing_forced" in_room small
./presolve.sh >"$room/example" || :
if grep -qx 'grade exact' "$room/example" && grep -qx 'end 6' "$room/example"; then pass 'the example'; else cat "$room/example"; fail 'the example'; fi
mkdir "$room/bin"
for tool in sh cat dirname sed head; do ln -s "$(command -v "$tool")" "$room/bin/$tool"; done
holds 'no rt' 2 '' env PATH="$room/bin" ./presolve.sh "$room/small"
says 'no rt is told' 'there is no rt here'

echo "$passed passed, $failed failed"
[ "$failed" -eq 0 ]

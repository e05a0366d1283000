#!/bin/sh
# Tests tools/run, tools/sums, tools/progress and test.sh in a small repository of its own, with a stand-in for rt.
# The last line is `N passed, M failed`.
set -eu
tools=$(cd "$(dirname "$0")" && pwd)
passed=0 failed=0
room=$(mktemp -d)
trap 'rm -rf "$room"' EXIT

# Holds a text to the one that is wanted, and counts it.
is() { # NAME GOT WANTED
    if [ "$2" = "$3" ]; then
        echo "scripts: $1: passed"
        passed=$((passed + 1))
    else
        printf '%s\n' "got:" "$2" "wanted:" "$3"
        echo "scripts: $1: FAILED"
        failed=$((failed + 1))
    fi
}

# ---- a repository of four crates, and an rt that builds a program which says what its source is
cd "$room"
mkdir -p tools bin crates/low/src crates/high/src crates/high/must-fail crates/other/src crates/lent/src kit/toolchain/lib
cp "$tools/run" "$tools/progress" "$tools/sums" tools
cp "$tools/../test.sh" .
printf '%s\n' '# leaves first' 'low:' 'other: low' 'high: low io' 'lent staticlib: low other' >crates.txt
echo one >crates/high/src/main.rt
echo low >crates/low/src/lib.rt
: >crates/high/must-fail/a.edit
: >crates/high/must-fail/b.edit
cat >bin/rt <<'END'
#!/bin/sh
case $1 in
version) echo kit ;;
ci)
    rm -rf crates/*/out
    cat "$ROOM/all"
    exit "$(cat "$ROOM/ci_status")"
    ;;
doc) echo "$ROOM/kit/START-HERE.md" ;;
run)
    cat >/dev/null
    echo built >>"$ROOM/built"
    echo 'what the program writes'
    if grep -q wrong src/main.rt; then
        printf '%s\n' 'rt: chose --jobs 2 for high' 'x.antt:1:2: error: no such name' 'fn high::f: no proof' 'logic=not-proved' >&2
        exit 1
    fi
    mkdir -p out
    cp src/main.rt out/high
    chmod +x out/high
    printf '%s\n' 'x.antt:1:2: note: large solution: `_`' 'rt: chose --jobs 2 for low' 'rt: chose --jobs 2 for high' >&2
    exit 3
    ;;
esac
END
printf '#!/bin/sh\nshift 2\ncat "$1" -\n' >kit/toolchain/lib/ld-linux-x86-64.so.2
: >kit/KIT-ID
chmod +x bin/rt kit/toolchain/lib/ld-linux-x86-64.so.2
export ROOM="$room" PATH="$room/bin:$PATH"

run() { echo given | tools/run high 2>"$room/said"; }

# ---- tools/run
is 'a program is built where there is none, and reads its input' "$(run)" 'one
given'
is 'the build says which crate of how many' "$(cat said)" 'Building high: its proofs take some minutes, once.
Proving crate 1 of 2: low
Proving crate 2 of 2: high'
is 'it is not built again where nothing changed' "$(run; cat said)" 'one
given'
echo two >crates/high/src/main.rt
touch -t 200001010000 crates/high/src/main.rt
is 'it is built again where a source holds another text, however old' "$(run)" 'two
given'
echo three >crates/high/src/main.rt
touch -t 203501010000 crates/high/src/main.rt
is 'it is built again where a source is newer' "$(run; head -n 1 said)" 'three
given
Building high again where its sources have changed.'
rm crates/high/out/high
is 'it is built again where it was removed' "$(run)" 'three
given'
touch crates/high/src/main.rt crates/low/src/lib.rt
is 'it is not built again where a source was written with the same text' "$(run; wc -l <built)" 'three
given
4'
echo other >crates/other/src/lib.rt
is 'nor where a crate changed that it does not use' "$(run; wc -l <built)" 'three
given
4'
echo lower >crates/low/src/lib.rt
is 'but where one that it uses did' "$(run; wc -l <built)" 'three
given
5'
echo another >crates/high/out/high
is 'and where it is another program' "$(run; wc -l <built)" 'three
given
6'
echo wrong >crates/high/src/main.rt
is 'a failed build runs nothing, with status 2' "$(run || echo "status $?")" 'status 2'
is 'it shows the error and names the log' "$(tail -n 3 said)" "x.antt:1:2: error: no such name
fn high::f: no proof
high was not built; the whole log is $room/target/high.log."

# ---- what rt ci leaves
# As rt ci leaves them: a program, and libraries.
left_by_ci() {
    echo proved >crates/high/out/high
    chmod +x crates/high/out/high
    for one in low other; do
        mkdir -p crates/$one/out/rlib/$one.rlib
        echo "sums of $one" >crates/$one/out/rlib/$one.rlib/format
    done
}
echo four >crates/high/src/main.rt
tools/sums --before sums
left_by_ci
tools/sums --proved sums
is 'a program that rt ci left is not built again' "$(run; wc -l <built)" 'proved
given
7'
is 'and its libraries are known' "$(tools/sums lent --libraries && echo yes)" yes
echo 'sums of another' >crates/other/out/rlib/other.rlib/format
is 'but not others in their place' "$(tools/sums lent --libraries || echo no)" no
left_by_ci
echo 'others' >crates/other/src/lib.rt
is 'nor where their files have changed' "$(tools/sums lent --libraries || echo no)" no
rm -r target/sums
tools/sums --before sums
echo five >crates/high/src/main.rt
left_by_ci
tools/sums --proved sums
is 'where a file changed while rt ci ran, its program is built again' "$(run; wc -l <built)" 'five
given
8'
rm -r target built

# ---- tools/progress
all='x.antt:1:2: note: large solution: `_` was filled in
fn low::f: proved
rt: low proved
rt: other: its tests are proved
rt: other NOT PROVED
rt: high proved
rt: high: trying its must-fail edits (2)
rt: lent is kept: an earlier run on this machine proved the same files over the same libraries
rt: must-fail high/a.edit: refused, as it must be
rt: must-fail high/b.edit: refused, as it must be
5 passed, 1 failed'
is 'all but the notes goes through, with how many crates are done' "$(printf '%s\n' "$all" | tools/progress)" 'fn low::f: proved
rt: low proved
1 of 4 crates are done
rt: other: its tests are proved
rt: other NOT PROVED
2 of 4 crates are done
rt: high proved
3 of 4 crates are done
rt: high: trying its must-fail edits (2)
rt: lent is kept: an earlier run on this machine proved the same files over the same libraries
4 of 4 crates are done
rt: must-fail high/a.edit: refused, as it must be
rt: must-fail high/b.edit: refused, as it must be
5 passed, 1 failed'
printf '%s\n' '40 low' '60 high' '70 other' '75 lent' '121 end' >last
is 'the time that is left at most is the last run'"'"'s' "$(printf '%s\n' "$all" | LAST=last NEW=new START="$(date +%s)" QUIET=1 tools/progress)" '1 of 4 crates are done; at most about 2 min left
2 of 4 crates are done; at most about 2 min left
3 of 4 crates are done; at most about 1 min left
4 of 4 crates are done'
is 'the moments of this run are kept' "$(cut -d' ' -f2 new | tr '\n' ' ')" 'low other high lent '

# ---- test.sh, over stand-ins for what it runs
printf '%s\n' 'The kit is `kit`.' >README.md
printf '%s\n' '#!/bin/sh' 'echo "python: $*"' 'exit ${PYTHON:-0}' >bin/python3
printf '%s\n' '#!/bin/sh' 'echo "sums: $1"' >tools/sums
printf '%s\n' '#!/bin/sh' 'echo "3 passed, 0 failed"' >tools/test_run.sh
printf '%s\n' '#!/bin/sh' 'echo "the program"' 'echo "20 passed, 0 failed"' >test_presolve.sh
printf '%s\n' '#!/bin/sh' 'echo "the command"' 'echo "6 passed, 0 failed"' >test_planner.sh
printf '%s\n' '#!/bin/sh' 'echo "the library"' 'echo "4 passed, ${MISSED:-0} failed"' 'exit ${MISSED:-0}' >test_library.sh
chmod +x bin/python3 tools/test_run.sh test_presolve.sh test_planner.sh test_library.sh
passes() { (./test.sh || echo "status $?") 2>&1; }

# What rt ci says where all passes: its last words on what was done, and what its line of edits counts besides.
passing() { # DONE BAD
    printf '%s\n' "$all" | sed -e 's/^rt: other NOT PROVED/rt: other proved/' -e '$d'
    printf '%s\n' "rt: ok; handles allowed: none; must-fail edits: 2 refused$2; $1" '5 passed, 0 failed'
}
anew='every proof and must-fail edit was done in this run'
passing "$anew" '' >all
echo 0 >ci_status
is 'the counts are added up in the last line' "$(passes | tail -n 5)" 'sums: --proved
the program
the command
the library
38 passed, 0 failed'
is 'the moments of a run that proved all are kept' "$(cut -d' ' -f2 target/times | tr '\n' ' ')" 'low other high lent end '
cp last target/times
is 'and tell the time that is left at most' "$(passes | grep -c 'at most about [0-9]* min left')" 3
cp last target/times
passing 'done in this run: 1 of the 4 proofs (of crates and of their tests); the others are kept from earlier runs of the same files on this machine' '' >all
is 'those of a run that took proofs from an earlier one are not' "$(passes | tail -n 1; cat target/times)" "38 passed, 0 failed
$(cat last)"
passing "$anew" '' >all
is 'a test of the library that fails' "$(MISSED=1 passes | tail -n 2)" '38 passed, 1 failed
status 1'
is 'leaves the moments of the run before' "$(cat target/times)" "$(cat last)"
passing "$anew" ', 2 bad' >all
is 'edits that are bad fail, though rt ci passes' "$(passes | tail -n 4)" 'Bad must-fail edits, as told above: 2; each is to be mended.
What is wrong stands above, in the words of rt. The program presolve, ombradiec and the library for C and Rust are not tried, since not all is proved.
8 passed, 2 failed
status 1'
printf '%s\n' 'rt: low NOT PROVED' 'rt: FAILED: low' '4 passed, 2 failed' >all
echo 1 >ci_status
is 'a proof that fails ends the run, and what it says stands above' "$(passes | tail -n 4)" 'rt: FAILED: low
What is wrong stands above, in the words of rt. The program presolve, ombradiec and the library for C and Rust are not tried, since not all is proved.
7 passed, 2 failed
status 1'
echo 'rt: no such thing' >all
is 'so does rt where it does not come to its end' "$(passes | tail -n 3)" 'proofs did not come to its end.
0 passed, 1 failed
status 2'
is 'and a test of tools/records that fails' "$(PYTHON=1 passes | tail -n 2)" '0 passed, 1 failed
status 2'

echo "$passed passed, $failed failed"
[ "$failed" -eq 0 ]

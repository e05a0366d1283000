#!/bin/sh
# Passes all tests: where python3 is there those of tools/records, of what the pages cite and of the sentences above definitions, those of the scripts, then every crate's
# proofs, tests, must-fail edits and programs, by `rt ci`, then those of the program presolve, of the planner's command and of the library for C and Rust, which
# rest on the crates proved just before.
# The last line is `N passed, 0 failed`.
set -eu
cd "$(dirname "$0")"

# Ends before there is anything to count.
give_up() {
    echo "$1"
    echo "0 passed, 1 failed"
    exit 2
}

command -v rt >/dev/null || give_up 'There is no rt here: it is the command of the Rattle kit, which README.md names.'
pinned=$(sed -n 's/^The kit is `\(.*\)`\.$/\1/p' README.md)
found=$(rt version)
if [ "$found" != "$pinned" ]; then
    echo "Another kit: README.md pins '$pinned', and this machine has '$found'. What follows is this machine's verdict."
fi
if command -v python3 >/dev/null; then
    python3 tools/test_records.py || give_up 'The tests of tools/records fail.'
    python3 tools/test_cited.py || give_up 'The tests of tools/cited fail.'
    python3 tools/cited || give_up 'A page cites what is not there, or a theorem whose statement names what stands outside specs/.'
    python3 tools/test_sentences.py || give_up 'The tests of tools/sentences fail.'
    python3 tools/sentences || give_up 'A definition or a public function has no sentence, or the mark of a theorem is not where docs/PROMISES.md says.'
else
    echo "There is no python3 here: the tests of tools/records, of what the pages cite, and of the sentences above definitions are passed over."
fi

# The moments of the last run that proved every crate tell how much time is left at most.
room=$(mktemp -d)
start=$(date +%s)
trap 'rm -rf "$room"' EXIT
trap 'exit 130' INT
trap 'exit 143' TERM

# Runs a command that ends in a line `N passed, M failed`: all but that line goes through as it comes, and the line and the status are kept.
count() { # NAME COMMAND..
    name=$1
    shift
    echo 0 >"$room/$name.status"
    : >"$room/$name.line"
    { "$@" || echo $? >"$room/$name.status"; } | awk -v kept="$room/$name.line" 'NR > 1 { print last; fflush() } { last = $0 } END { if (NR) print last >kept }'
    case $(cat "$room/$name.line") in
    *[0-9]' passed, '*[0-9]' failed') ;;
    *)
        cat "$room/$name.line"
        give_up "$name did not come to its end."
        ;;
    esac
}

failed() { [ "$(cat "$room/$1.status")" -ne 0 ]; }

# Adds up what was counted, and ends.
finish() {
    cat "$room"/*.line | awk '{ passed += $1; failed += $3 } END { print passed " passed, " failed " failed" }'
    exit "$(cat "$room"/*.status | sort -n | tail -n 1)"
}

# All that rt ci proves, tries and runs. An edit that cannot be applied, compiled or read fails nothing there, and its line `rt: ok` counts it as bad: here it fails.
prove() {
    echo 0 >"$room/ci"
    tools/sums --before "$room/sums"
    { rt ci || echo $? >"$room/ci"; } | tee "$room/said" | LAST=target/times NEW=$room/new START=$start tools/progress |
        awk 'NR > 1 { print last; fflush() } { last = $0 }'
    line=$(tail -n 1 "$room/said")
    bad=$(sed -n '/^rt: ok/s/.*, \([0-9][0-9]*\) bad.*/\1/p' "$room/said" | tail -n 1)
    if [ -n "$bad" ]; then
        echo "Bad must-fail edits, as told above: $bad; each is to be mended."
        line=$(echo "$line" | awk -v bad="$bad" '{ print $1 " passed, " $3 + bad " failed" }')
        [ "$(cat "$room/ci")" -ne 0 ] || echo 1 >"$room/ci"
    fi
    echo "$line"
    return "$(cat "$room/ci")"
}

count scripts tools/test_run.sh
count proofs prove
if failed proofs; then
    echo "What is wrong stands above, in the words of rt. The program presolve, ombradiec and the library for C and Rust are not tried, since not all is proved."
    finish
fi
tools/sums --proved "$room/sums"
count presolve ./test_presolve.sh
count planner ./test_planner.sh
count library ./test_library.sh
if ! failed scripts && ! failed presolve && ! failed planner && ! failed library && grep -q '^rt: ok.* every proof and must-fail edit was done in this run' "$room/said"; then
    echo "$(($(date +%s) - start)) end" >>"$room/new"
    mkdir -p target
    cp "$room/new" target/times
fi
finish

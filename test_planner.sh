#!/bin/sh
# Runs the tests of the planner's command, or those of the modules named (planner/tests), where python3 is there.
# The last line is `N passed, M failed`.
set -eu
cd "$(dirname "$0")"
if ! command -v python3 >/dev/null; then
    echo "There is no python3 here: the tests of ombradiec are passed over."
    echo "0 passed, 0 failed"
    exit
fi
exec python3 -B -m planner.tests "$@"

#!/bin/sh
# Runs the Rust text and the port on the same random cases and compares every line, for the calls that the port has.
# Usage: compare.sh SEED COUNT [RUST_TEXT_FOLDER]; where no folder is named, RUST_TEXT names it, or it is side-by-side/text
set -eu
usage='usage: compare.sh SEED COUNT [RUST_TEXT_FOLDER]'
seed=${1:?$usage}
count=${2:?$usage}
text=$("$(dirname "$0")/side-by-side/text-folder" "${3:-}")
cd "$(dirname "$0")"
CALLS=${CALLS:-closure,components,preprocess,heavy,single-probe,cold-probe,probe,limited-probe,pairs,propagation,anchors,no-effect,shift,sub-problem,mend,reason,keep,cold-full,cold-limited,allow} exec side-by-side/compare "$seed" "$count" "$text" -- tools/run replay

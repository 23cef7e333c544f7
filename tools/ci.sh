#!/usr/bin/env bash
# Runs `rt ci`: every crate, its tests and must-fail edits, and the programs against their stored output. `rt ci` passes
# edits that could not be tried: here they fail. The last line is that of `rt ci`.
set -euo pipefail
cd "$(dirname "$0")/.."
mkdir -p target
rt ci 2>&1 | tee target/ci.log
verdict=$(grep '^rt: ok' target/ci.log) || { echo 'ci: rt ci does not say ok' >&2; exit 1; }
if [[ $verdict =~ ,\ [1-9][0-9]*\ bad ]]; then
    echo 'ci: a must-fail edit is bad: see the lines BAD EDIT' >&2
    exit 1
fi

#!/usr/bin/env bash
# Proves and builds the programs that are named, each as target/bin/NAME. What the toolchain says of one goes to
# target/NAME.log, and is shown where the program does not prove.
set -euo pipefail
cd "$(dirname "$0")/.."
mkdir -p target/bin
for name in "$@"; do
    input=/dev/null
    [ ! -f "crates/$name/stdin" ] || input="crates/$name/stdin"
    # `rt run` is the command that builds a program; its own input has it end well.
    (exec < "$input"; cd "crates/$name"; rt run) > "target/$name.log" 2>&1 || { cat "target/$name.log" >&2; exit 1; }
    cp "crates/$name/out/$name" "target/bin/$name"
done

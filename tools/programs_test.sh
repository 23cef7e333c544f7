#!/usr/bin/env bash
# What no contract can say of the programs: what `list` writes and how it ends, on the shipped example, on no bytes, on as
# many as there are addresses, and on one more; and that `witness` fails on a name that differs and on a missing opcode.
set -euo pipefail
cd "$(dirname "$0")/.."
tools/build.sh list witness
out=target/programs_test
mkdir -p "$out"
fail() { echo "programs_test: $1" >&2; exit 1; }

cmp examples/meal.bin crates/list/stdin
target/bin/list < examples/meal.bin | diff crates/list/stdout -

target/bin/list < /dev/null > "$out/none"
grep -qx 'listed: 0 groups: 0 instructions and 0 BYTE' "$out/none" || fail 'no bytes are not listed as no groups'

head -c 65536 /dev/zero | target/bin/list > "$out/full"
grep -qx 'FFFF 00 IDL' "$out/full" || fail 'the byte at FFFF is not listed'
grep -qx 'listed: 65536 groups: 65536 instructions and 0 BYTE' "$out/full" || fail '65536 bytes are not listed'

# A program on standard input that it has to refuse: it ends with status 1, and says why in one line of error.
refused() {
    local name=$1 why=$2 status=0
    "target/bin/$name" > "$out/$name" 2> "$out/$name.err" || status=$?
    [ "$status" = 1 ] || fail "$name ends with status $status where it has to refuse"
    [ "$(wc -l < "$out/$name.err")" = 1 ] || fail "$name does not say in one line what is wrong"
    grep -q "^$name: .*$why" "$out/$name.err" || fail "$name does not say why it refuses: $why"
}

head -c 65537 /dev/zero | refused list 'at most 65536'
[ ! -s "$out/list" ] || fail 'a refused program is listed'

sed 's/^7A REQ$/7A SEQ/' crates/witness/stdin | refused witness 'names differ'
grep -qx 'differs: 7A SEQ' "$out/witness" || fail 'witness does not say which name differs'
head -n 255 crates/witness/stdin | refused witness 'an opcode is missing'
echo 'programs_test: list and witness print and refuse what is expected'

#!/usr/bin/env bash
# Builds the C example over the static library and holds what it prints to examples/list_bytes.expected: once with the
# address sanitizer in the C code, and once under valgrind, which also watches the library.
set -euo pipefail
cd "$(dirname "$0")/.."
command -v valgrind > /dev/null || { echo 'c_test: valgrind is wanted: install the package valgrind' >&2; exit 1; }
tools/staticlib.sh
out=target/c
mkdir -p "$out"
flags=(-std=c11 -Wall -Wextra -Werror -O1 -g -Iinclude examples/list_bytes.c target/staticlib/liblisting.a)
gcc -fsanitize=address,undefined -fno-sanitize-recover=all "${flags[@]}" -o "$out/list_bytes_sanitized"
gcc "${flags[@]}" -o "$out/list_bytes"
"$out/list_bytes_sanitized" > "$out/sanitized.txt"
valgrind --quiet --error-exitcode=9 --leak-check=full "$out/list_bytes" > "$out/valgrind.txt"
diff examples/list_bytes.expected "$out/sanitized.txt"
diff examples/list_bytes.expected "$out/valgrind.txt"
echo 'c_test: the C caller prints what is expected, with the address sanitizer and under valgrind'

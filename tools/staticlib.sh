#!/usr/bin/env bash
# Proves and builds the library for C callers, target/staticlib/liblisting.a.
set -euo pipefail
cd "$(dirname "$0")/.."
mkdir -p target/staticlib
(cd crates/listing_c && rt lib) > target/staticlib.log 2>&1 || { cat target/staticlib.log >&2; exit 1; }
cp crates/listing_c/out/liblisting_c.a target/staticlib/liblisting.a

#!/usr/bin/env bash
# Runs the tests of the second implementation: the examples of document 01, what has landed of document 02, and the
# readings (docs/READINGS.md).
set -euo pipefail
cd "$(dirname "$0")/.."
log=$(mktemp)
trap 'rm -f "$log"' EXIT
export CARGO_TARGET_DIR=target/cargo
cargo test --quiet --release --locked --manifest-path reference/Cargo.toml >"$log" 2>&1 || { cat "$log"; exit 1; }
passed=$(awk '/^test result: ok/ { passed += $4 } END { print passed + 0 }' "$log")
[ "$passed" -gt 0 ] || { echo 'reference: no test was run'; exit 1; }
echo "reference: $passed tests of the second implementation"

#!/usr/bin/env bash
# Compares the library and PanelRights with the second implementation: exhaustively over small sites, and at random.
# Arguments: a seed, how many times longer than usual, and the parts; or 'replay' and a case as a failure prints it. It
# wants target/lib/libpanelrights.a and target/bin/panelrights. The usual run takes about a minute on two cores, and is
# ended after 15.
set -euo pipefail
cd "$(dirname "$0")/.."
CARGO_TARGET_DIR=target/cargo cargo build --release --quiet --locked --manifest-path tests/differential/Cargo.toml
limit=0
[ $# -gt 0 ] || limit=900
timeout "$limit" target/cargo/release/differential "$@"

#!/usr/bin/env bash
# The archive and its programs beside an implementation of the product paper in plain Rust (tests/host), in both modes: every entry on many calls, series of
# steps on a register block, whole presses by the node entries over a bus with damage, the printed run of many tables, and demand 3 itself; and that
# implementation beside the stored calls of other code. SEED chooses other calls, CALLS, SERIES, PRESSES and TABLES more of them.
# Usage: host.sh, after make archive, target/bin/grouprun and target/bin/quietrun
set -euo pipefail
cd "$(dirname "$0")/host"
cargo build --quiet --release --offline -j1
target/release/stored
CALLS=${CALLS:-2000000} target/release/compare
target/release/press
target/release/printed
target/release/demand3

#!/usr/bin/env bash
# One table of times: the archive, grouprun and quietrun beside the implementation of the product paper in plain Rust (tests/host) and beside plain C (bench/plain).
# Usage: speed.sh GROUPRUN QUIETRUN PLAIN TABLEGEN MEASURE BUILD-FOLDER, after make archive and the C programs and library
set -euo pipefail
paths=() host=$(dirname "$0")/../tests/host
for path in "$@"; do paths+=("$(realpath "$path")"); done
(cd "$host" && cargo build --quiet --profile fast --features speed --offline -j1 --bin speed --bin paperrun)
cat <<'HEADING'
Processor time, the best of several turns taken in rotation. ours: libgm.a and the programs as compiled. Rust: tests/host at opt-level 3 with link-time
optimisation, without overflow checks. C: bench/plain, gcc -O3. All three are for plain x86-64 and work out both checks bit by bit.
Ratios are of times: below 1, ours is faster. No entry gives a check alone: the header check is timed as a vote frame that is refused for it (refusal 6),
the frame check as a frame of 262 bytes that is refused after it, as not due (refusal 9).
Heartbeats are written, read and received without drive bytes (words 1) and with 2, 30 and 252 of them. Asked for are at most 1.25 times C's time each, and
for two channels at most 2.1 times one read.
Rows that say "quiet", and quietrun, are of presses in mode 1, all others of presses that vote in every cycle. Asked for are at most 1.4 times C's
time for quietrun without faults at 64 nodes, and 1.15 for decide, send vote and receive heartbeat.
Steps on a register block: a read of the pending byte, a write that clears a flag, a cycle, and both together.
"to ours" is ours to another operation of ours, timed in the same rotation: two channels to one read of the same words, a cycle of a block, alone and with
a write, to a decide on the same state and votes.
HEADING
"$host"/target/fast/speed "${paths[@]}"

#!/usr/bin/env bash
# Whether a program answers input of any kind as plain C does: cut, changed and random tables, and one that comes in pieces.
# Usage: badinput.sh PROGRAM TABLEGEN BUILD-FOLDER PLAIN [ITS ARGUMENT]; the folder holds tabletext, and the argument is the mode of plain C
set -euo pipefail
program=$1 tablegen=$2 build=$3 plain=("${@:4}") here=$(dirname "$0")
table=$build/badinput.p1 input=$build/badinput.tab expected=$build/badinput.expected given=$build/badinput.out
count=0 refused=0
fail() { echo "tests/badinput: $* (kept in $input)" >&2; exit 1; }

# the input stands in its file; `must` says that it is no table
try() { # NAME [must]
    local last
    timeout 10 "${plain[@]}" <"$input" >"$expected" || fail "$1: plain C ended with status $?"
    timeout 10 "$program" <"$input" >"$given" || fail "$1: ended with status $?"
    cmp -s "$given" "$expected" || fail "$1: another run than plain C"
    last=$(tail -n 1 "$given")
    case $last in
    "refused 1" | "refused 11" | "refused 12" | "refused 13") refused=$((refused + 1)) ;;
    *) ! grep -q refused "$given" && [ "${2:-}" != must ] || fail "$1: no refusal as the last line" ;;
    esac
    count=$((count + 1))
}

"$build/tabletext" table <"$here/../examples/p1.txt" >"$table"
mapfile -t bytes < <(od -An -v -tu1 -w1 "$table")
size=${#bytes[@]}
: >"$input"
try "empty input" must
for ((len = 1; len < size; len++)); do
    head -c "$len" "$table" >"$input"
    # a table may end after the first record, of 12 bytes, and after each cycle, of 36
    if ((len < 12 || (len - 12) % 36 != 0)); then try "$len bytes of P1" must; else try "$len bytes of P1"; fi
done
for ((at = 0; at < size; at++)); do
    for flip in 1 255; do
        printf -v changed '\\x%02x' $((bytes[at] ^ flip))
        { head -c "$at" "$table"; printf "$changed"; tail -c +$((at + 2)) "$table"; } >"$input"
        try "P1 with byte $at changed by $flip"
    done
done
for len in 1 2 3 12 36 100 1000 65535 65536 65537 300000; do
    head -c "$len" /dev/urandom >"$input"
    try "$len random bytes"
    { cat "$table"; head -c "$len" /dev/urandom; } >"$input"
    try "P1 and $len random bytes"
done
for ((seed = 1; seed <= 100; seed++)); do
    "$tablegen" $((2 + seed * 5 % 63)) $((seed % 40)) "$seed" 2 >"$input"
    try "damaged table $seed"
done
# longer than any buffer, whole and cut
for n in 2 5 64; do
    "$tablegen" "$n" 5000 "$n" 1 >"$input"
    try "5000 cycles of $n nodes"
    truncate -s -1 "$input"
    try "5000 cycles of $n nodes without the last byte" must
done
# what comes through a pipe in two pieces is one input; P1 prints the same in both modes
for cut in 1 2 3 12 13 47 48 191; do
    { head -c "$cut" "$table"; sleep 0.05; tail -c +$((cut + 1)) "$table"; } | timeout 10 "$program" >"$given" || fail "P1 in two pieces: status $?"
    cmp -s "$given" "$here/../examples/p1.out" || fail "P1 in two pieces, the first of $cut bytes: another run"
    count=$((count + 1))
done
rm -f "$input" "$table" "$expected" "$given"
echo "tests/badinput: ${program##*/}: $count inputs answered as by plain C, $refused of them refused"

#!/usr/bin/env bash
# Whether each example table prints the run that is stored beside it, that of a quiet press by quietrun. Usage: examples.sh GROUPRUN QUIETRUN TABLETEXT
set -euo pipefail
grouprun=$1 quietrun=$2 tool=$3 examples=$(dirname "$0")/../examples
fail() { echo "tests/examples: $*" >&2; exit 1; }

count=0
prints() { # PROGRAM TEXT
    "$tool" table <"$2" | "$1" | cmp -s - "${2%.txt}.out" || fail "$2 prints another run"
    count=$((count + 1))
}
for text in "$examples"/p*.txt; do prints "$grouprun" "$text"; done
prints "$quietrun" "$examples/quiet.txt"
! "$tool" table <"$examples/quiet.txt" | "$grouprun" | cmp -s - "$examples/quiet.out" || fail "the quiet press is run the same by both programs"
[ "$count" -eq 11 ] || fail "$count examples instead of 11"
echo "tests/examples: $count examples print their stored runs"

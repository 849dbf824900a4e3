#!/usr/bin/env bash
# Whether the programs print the stored run of every stored table: tests/vectors/*/X.tab gives X.out, byte for byte, the tables of t03 in a quiet press.
# Usage: vectors.sh GROUPRUN QUIETRUN
set -euo pipefail
grouprun=$1 quietrun=$2 vectors=$(dirname "$0")/vectors quiet=0
fail() { echo "tests/vectors: $*" >&2; exit 1; }

shopt -s nullglob
tables=("$vectors"/*/*.tab) runs=("$vectors"/*/*.out)
[ "${#tables[@]}" -gt 0 ] || fail "no table in $vectors"
[ "${#tables[@]}" -eq "${#runs[@]}" ] || fail "${#tables[@]} tables, but ${#runs[@]} runs"
for table in "${tables[@]}"; do
    case $table in
    */t03/*) program=$quietrun quiet=$((quiet + 1)) ;;
    *) program=$grouprun ;;
    esac
    timeout 10 "$program" <"$table" | cmp -s - "${table%.tab}.out" || fail "$table gives another run"
done
[ "$quiet" -gt 0 ] || fail "no table of a quiet press"
echo "tests/vectors: ${#tables[@]} tables agree, $quiet of them quiet"

#!/usr/bin/env bash
# The deepest stack of an entry on one node and of one on a row, in bytes below the caller's stack pointer: walked through the archive's code
# (tests/stackwalk.awk), sampled in calls (tests/stack.c), and as the header says. It fails if an entry is not sampled, if a walked figure is above the header's
# constant or not the one that header and README name, or if a sampled one is above the walked one, which would show that the walk is wrong. Usage: stack.sh
# ARCHIVE BUILD-FOLDER [-v], with -v also the functions that go so deep, and what is sampled where the dynamic linker binds memset and memcpy inside a call
set -euo pipefail
archive=$1 build=$2 verbose=${3-}
mkdir -p "$build"
fail() { echo "stack: $*" >&2; exit 1; }

# of memset and memcpy the return address is counted: those of glibc for x86-64 take no more
{ objdump -r "$archive" && echo code: && objdump -drz --no-show-raw-insn "$archive"; } | awk -v outside="memset memcpy" -f tests/stackwalk.awk >"$build/stack.walked"

sample() { # BINDING: every call from the same depth, and no memset but the entries'
    gcc -std=gnu99 -Wall -Wextra -Werror -O2 -maccumulate-outgoing-args -fno-optimize-sibling-calls -fno-tree-loop-distribute-patterns -Iinclude \
        tests/stack.c "$archive" -pthread -Wl,-z,"$1" -o "$build/stack" && "$build/stack" >"$build/stack.$1"
}
sample now

on_node=$(sed -nE '/\*row/d; s/^uint32_t (gm_[a-z_]+).*/\1/p' include/gm.h)
on_row=$(sed -nE 's/^uint32_t (gm_[a-z_]+)\(.*\*row.*/\1/p' include/gm.h)

# of the lines "ENTRY BYTES .." the deepest of these entries
deepest() { # FILE ENTRY...
    awk -v entries="${*:2}" '
        BEGIN { for (k = split(entries, name, " "); k > 0; k--) wanted[name[k]] }
        $1 in wanted && $2 > most { most = $2; line = $0 }
        END { print line }' "$1"
}
for entry in $on_node $on_row; do
    grep -q "^$entry " "$build/stack.now" || fail "tests/stack.c does not call $entry"
done

report() { # WHAT CONSTANT ENTRY...
    local walked chain stated sampled text
    read -r _ walked chain <<<"$(deepest "$build/stack.walked" "${@:3}")"
    read -r _ sampled <<<"$(deepest "$build/stack.now" "${@:3}")"
    stated=$(awk -v name="$2" '$2 == name { print $3 + 0 }' include/gm.h)
    for text in include/gm.h README.md; do grep -qw "$walked" "$text" || fail "$text does not name the $walked bytes that are walked on $1"; done
    echo "stack: an entry on $1 takes at most $walked bytes as walked, took $sampled as sampled; $2 is $stated"
    [ "$verbose" != -v ] || echo "    ${chain// / > }"
    [ "$walked" -le "$stated" ] || fail "an entry on $1 takes $walked bytes, more than the header says"
    [ "$sampled" -le "$walked" ] || fail "an entry on $1 took $sampled bytes, more than the walk finds"
}
report "one node" GM_STACK_BYTES $on_node
report "a row" GM_ROW_STACK_BYTES $on_row
[ "$verbose" = -v ] || exit 0
sample lazy
read -r entry sampled <<<"$(deepest "$build/stack.lazy" $on_node)"
echo "stack: with memset and memcpy bound inside a call (-z lazy) $entry took $sampled bytes as sampled"

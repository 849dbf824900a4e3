#!/usr/bin/env bash
# Right after the gate: compiles the archive over the very libraries that the gate proved, as they lie in crates/*/out, and places it. They lie there where nothing else had
# been checked in this clone; where something had, this does nothing, and `make archive` builds the archive by `rt lib`. Usage: archive.sh ARCHIVE
set -euo pipefail
cd "$(dirname "$0")/.."
archive=$PWD/$1 log=$PWD/log/archive.log kit=$(dirname "$(dirname "$(realpath "$(command -v rt)")")")
words=(--crate-name gm_c src/lib.rt --extern "std=$kit/rlibs/std.rlib" -L "dependency=$kit/rlibs")

while IFS=':' read -r name rests; do
    for low in $rests; do
        [ "${name%% *}" != gm_c ] || words+=(--extern "$low=../$low/out/rlib/$low.rlib")
    done
    [ "${name%% *}" != gm_c ] || continue
    # the gate's libraries have no stamp, those of other commands have
    [ -d "crates/$name/out/rlib/$name.rlib" ] && [ ! -e "crates/$name/out/rlib/stamp" ] || exit 0
    words+=(-L "dependency=../$name/out/rlib")
done < <(tools/rests.sh gm_c)

mkdir -p "$(dirname "$archive")" log
cd crates/gm_c
"$kit/bin/rattle" build "${words[@]}" --antt-project "$kit/rattle/logic/antt-project.json" --logic-built "$kit/logic_built" \
    --crate-type staticlib --toolchain "$kit/toolchain" --backend llvm --cpu x86-64 -o "$archive" >"$log" 2>&1 || { tail -n 10 "$log" >&2; exit 1; }

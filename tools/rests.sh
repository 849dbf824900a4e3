#!/usr/bin/env bash
# The lines of crates.txt of a crate and of all that it rests on, in their order; every line where no crate has the name. Usage: rests.sh NAME
set -euo pipefail
cd "$(dirname "$0")/.."
awk -v wanted="$1" '
    /^[^#]/ { line[++lines] = $0; split($0, half, ":"); split(half[1], word, " "); crate[lines] = word[1]; rests[word[1]] = half[2] }
    function need(name,  i, n, low) {
        if (!(name in rests) || name in needed) return
        needed[name] = 1
        n = split(rests[name], low, " ")
        for (i = 1; i <= n; i++) need(low[i])
    }
    END {
        all = !(wanted in rests)
        need(wanted)
        for (i = 1; i <= lines; i++) if (all || crate[i] in needed) print line[i]
    }' crates.txt

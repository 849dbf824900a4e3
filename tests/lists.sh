#!/usr/bin/env bash
# Whether what is listed by hand is whole: README's table of the crates and ARCHITECTURE's picture of them against crates.txt and the first sentence of each
# crate's source, ARCHITECTURE's table of who opens which definitions against the proofs, and the names at the top of the large definition files against what
# those declare.
set -euo pipefail
cd "$(dirname "$0")/.."
wrong=0
complain() { echo "tests/lists: $*" >&2; wrong=$((wrong + 1)); }

# Two lists of lines must be the same: each line that one of them lacks is told.
same() { # WHAT LIST OTHER-WHAT OTHER-LIST
    local line
    while read -r line; do complain "$1 has '$line', and $3 has not"; done < <(comm -23 <(sort <<<"$2") <(sort <<<"$4"))
    while read -r line; do complain "$3 has '$line', and $1 has not"; done < <(comm -13 <(sort <<<"$2") <(sort <<<"$4"))
}

# ---- the crates: "LAYER | CRATE | SENTENCE" a line, in the order of crates.txt, and "CRATE DEPENDENCY" a line

crates=$(sed -nE 's/^([a-z_0-9]+)( [^:]*)?:.*/\1/p' crates.txt)
sentence() { # of a crate: the first of its source
    head -n 1 "crates/$1/src/"{lib,main}.rt 2>/dev/null | sed -nE 's#^// (.*)#\1#p' | sed -E 's/\. .*//; s/\.$//'
}

# in the picture a layer's name stands before its first line, and a line that is set in further goes on with the one before
picture=$(awk '
    /^```/ { inside = !inside; next }
    inside && substr($0, 1, 13) == "             " { last = last " " $0; next }
    inside { if (last != "") print last; if (/^[a-z]/) { layer = $1; sub(/^[a-z]+/, "") } last = layer " " $0 }
    END { print last }' docs/ARCHITECTURE.md)
# "LAYER CRATE" and "CRATE DEPENDENCY"; a line without an arrow names crates that rest on nothing
placed=$(awk '{ end = NF; for (i = 3; i <= NF; i++) if ($i == "─▶") end = 2; for (i = 2; i <= end; i++) print $1, $i }' <<<"$picture")
drawn=$(awk '$3 == "─▶" { for (i = 4; i <= NF; i++) print $2, $i }' <<<"$picture")

# what crates.txt says of the repository's own crates, less what is reached by way of another dependency
arrows=$(awk -F ': *' '
    { sub(/ .*/, "", $1) }
    NR == FNR { if ($1 !~ /^#/) own[$1] = 1; next }
    function reaches(from, to,  i, n, d) {
        if ((from, to) in known) return known[from, to]
        n = split(deps[from], d, " ")
        for (i = 1; i <= n; i++) if (d[i] == to || (d[i] in own && reaches(d[i], to))) return known[from, to] = 1
        return known[from, to] = 0
    }
    $1 in own { deps[$1] = $2; order[++count] = $1 }
    END {
        for (k = 1; k <= count; k++) {
            n = split(deps[order[k]], d, " ")
            for (i = 1; i <= n; i++) {
                by = !(d[i] in own)
                for (j = 1; j <= n; j++) if (d[j] in own && reaches(d[j], d[i])) by = 1
                if (!by) print order[k], d[i]
            }
        }
    }' crates.txt crates.txt)

same "docs/ARCHITECTURE.md's picture" "$(cut -d ' ' -f 2 <<<"$placed")" crates.txt "$crates"
same "docs/ARCHITECTURE.md's picture" "$(sed 's/ / ─▶ /' <<<"$drawn")" crates.txt "$(sed 's/ / ─▶ /' <<<"$arrows")"

table=$(sed -nE 's/^\| ([a-z]+) \| `([a-z_0-9]+)` \| (.*) \|$/\1 | \2 | \3/p' README.md)
due=$(for crate in $crates; do echo "$(awk -v name="$crate" '$2 == name { print $1 }' <<<"$placed") | $crate | $(sentence "$crate")"; done)
same "README.md's table" "$table" "the source of each crate" "$due"
[ "$(cut -d '|' -f 2 <<<"$table")" = "$(cut -d '|' -f 2 <<<"$due")" ] || complain "README.md's table is in another order than crates.txt"
low=$(awk -F ': *' '
    { sub(/ .*/, "", $1) }
    NR == FNR { if ($1 !~ /^#/) own[$1] = 1; next }
    !/^#/ { n = split($2, d, " "); for (i = 1; i <= n; i++) if (d[i] in own && !(d[i] in above)) print $1 " before " d[i]; above[$1] = 1 }' crates.txt crates.txt)
[ -z "$low" ] || complain "crates.txt names a crate before one that it rests on: $low"

# ---- who opens the text of whose definitions, "OWNER CRATE" a line: `unfolding` in a proof or at a function, but where worked examples and witnesses compute

opened=$({ find crates/*/proofs -name '*.antt' ! -name Worked.antt ! -path 'crates/theorem_refused/proofs/There.antt' ! -path 'crates/theorem_entries/proofs/There.antt' -print0 |
    xargs -0 awk '
    FNR == 1 { delete owner; split(FILENAME, part, "/") }
    /^use Rattle\.[^ ]*\.specs\..*\{/ {
        crate = $2; sub(/^Rattle\./, "", crate); sub(/\..*/, "", crate)
        sub(/^[^{]*\{/, ""); sub(/\}.*/, "")
        for (i = split($0, name, /, */); i > 0; i--) owner[name[i]] = crate
    }
    /^ *unfolding / { for (i = 2; i <= NF; i++) if ($i in owner && owner[$i] != part[2]) print owner[$i], part[2] }'
    # and by a function itself, for its own proof: an attribute with `unfolding(CRATE::specs::FILE::NAME, ..)`
    grep -HoE 'unfolding\([^)]*\)' crates/*/src/*.rt | awk -F '[:/]' '
        { crate = $2; while (match($0, /[a-z_0-9]+::specs::/)) { owner = substr($0, RSTART, RLENGTH - 9); if (owner != "crate" && owner != crate) print owner, crate; $0 = substr($0, RSTART + RLENGTH) } }'
} | sort -u)
# of each row of the table "ROW: CRATE", as it is written and as it is due: whoever opens a crate of the row and is none of it
rows=$(awk -F ' [|] ' '/ opened by \|$/ { inside = 1; next } inside && !/^\|/ { exit } inside && /^\| `/ { print $1 "|" $NF }' docs/ARCHITECTURE.md)
row_crates() { # CELL: the crates that it names, `entry_..` being all of that layer
    grep -oE '`[a-z_0-9]+(\.\.)?`' <<<"$1" | tr -d '`' | while read -r name; do grep -E "^${name/../.*}\$" <<<"$crates" || true; done | sort -u
}
written=$(while IFS='|' read -r _ layer by _; do for crate in $(row_crates "$by"); do echo "$layer: $crate"; done; done <<<"$rows")
due=$(while IFS='|' read -r _ layer by _; do
    own=$(row_crates "$layer")
    comm -13 <(echo "$own") <(awk 'NR == FNR { own[$1]; next } $1 in own { print $2 }' <(echo "$own") - <<<"$opened" | sort -u) | sed "s/^/$layer: /"
done <<<"$rows")
same "docs/ARCHITECTURE.md's table" "$written" "what is opened in proofs" "$due"

# ---- the vocabulary: before the first `use` a line "--     NAME, NAME: WHAT" for the public names of the file

count=0
for file in rules/specs/OneCycle rules/specs/Faults table/specs/Records row_calls/specs/Calls sets/specs/Sets frames/specs/Read; do
    file=crates/$file.antt
    # an operator may stand there with `_` for its arguments
    listed=$(sed -nE '/^use /q; s/^--     ([^:]+): .+/\1/p' "$file" | sed 's/, /\n/g' | sed -E 's/^_([^_a-z]+)_$/◌\1◌/')
    declared=$(sed -nE 's/^((unfoldable|abbrev) )?pub (record |data )?([^ ]+).*/\4/p' "$file")
    same "the vocabulary of $file" "$listed" "the file" "$declared"
    count=$((count + $(wc -l <<<"$declared")))
done

[ "$wrong" -eq 0 ] || exit 1
echo "lists: $(wc -l <<<"$crates") crates in README and ARCHITECTURE as in crates.txt, with $(wc -l <<<"$arrows") arrows, and who opens whose definitions; $count names in six vocabularies"

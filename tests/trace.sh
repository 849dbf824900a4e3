#!/usr/bin/env bash
# Whether docs/TRACE.md is whole: every sentence of the product paper and of requests 1 to 3 has its row, no cell is empty and no row too long to read, every name that a
# row cites is there, and every must-fail edit is cited, and names in its line `refused by:` a law or contract that is there. Usage: trace.sh [FILE], by default
# docs/TRACE.md
set -euo pipefail
root=$(cd "$(dirname "$0")/.." && pwd)
file=$(realpath "${1:-$root/docs/TRACE.md}")
cd "$root"

# how many sentences each section of the paper has, and each request, by the section's short name; the examples are counted from 0
declare -A sentences=([product]=12 [state]=5 [cycle]=16 [faults]=9 [frames]=12 [table]=5 [refused]=16 [printed]=5 [examples]=10 [mistakes]=4
    [forms]=16 [questions]=20 [registers]=13 [drive]=7 [quiet]=11)
# what a reader takes in at once: characters of a row, names of a cell
longest=420 most=4
declare -A there=() cited=() last=()
rows=0 wrong=0
complain() { echo "tests/trace: $*" >&2; wrong=$((wrong + 1)); }
[ -f "$file" ] || { complain "no file $file"; exit 1; }

# The cells of every row: line, column and text, divided by tabs; a row that is none is one line with the column `row`. The line before a line of dashes
# names the columns, of a table of sentences or of edits.
cells() {
    awk -v OFS='\t' -v longest="$longest" '
        function trim(s) { gsub(/^ +| +$/, "", s); return s }
        function flush(  i, n, c) {
            n = split(row, c, "|") - 2
            if (length(row) > longest) print at, "row", length(row) " characters, and at most " longest " may be"
            if (row != "" && n != columns) print at, "row", n " cells, and not " columns
            else for (i = 1; i <= n; i++) print at, title[i], trim(c[i + 1])
            row = ""
        }
        function head(  i, c) {
            columns = split(row, c, "|") - 2
            for (i = 1; i <= columns; i++) title[i] = trim(c[i + 1])
            if (row !~ /^\| (sentence \| definition \| theorem or contract \| test \| must-fail edit|must-fail edit \| what it breaks) \|$/)
                print at, "row", "columns that are not known"
            if (gsub(/---/, "&") != columns) print NR, "row", "not as many dashes as columns"
            row = ""
        }
        /^\|[-|]+$/ { head(); next }
        { flush() }
        /^\|/ { row = $0; at = NR }
        END { flush() }' "$file"
}

# a name in backticks must be there, stand for one place, and be of the kind of its column
name() { # LINE COLUMN NAME
    local place=${there[$3]-}
    cited[$3]=yes
    case $2:$place in
        *:) complain "line $1, $2: \`$3\` is not there" ;;
        *:several) complain "line $1, $2: \`$3\` stands for several places" ;;
        definition:crates/*/proofs/* | "theorem or contract":crates/*/specs/*) complain "line $1, $2: \`$3\` is no $2: $place" ;;
    esac
}

# a cell is not empty, and its few names are there; where no edit is named, it says so
cell() { # LINE COLUMN TEXT
    local rest=$3 found= one count=0
    [ -n "$3" ] || complain "line $1, $2: an empty cell"
    while [[ $rest == *\`*\`* ]]; do
        rest=${rest#*\`} one=${rest%%\`*} rest=${rest#*\`}
        name "$1" "$2" "$one"
        count=$((count + 1))
        [[ ${there[$one]-} != */must-fail/* ]] || found=yes
    done
    [[ $rest != *\`* ]] || complain "line $1, $2: a backtick too many"
    [ "$count" -le "$most" ] || complain "line $1, $2: $count names, and at most $most may be"
    [ "$2" != "must-fail edit" ] || [ -n "$found" ] || [[ $3 == none:* ]] || complain "line $1, $2: neither an edit nor 'none:'"
}

# a sentence's key: the section's short name, the number after the one before, and the opening words
key() { # LINE TEXT
    [[ $2 =~ ^([a-z]+)\ ([0-9]+)\ \"[^\"]+\"$ ]] || { complain "line $1, sentence: not a short name, a number and words in quotes"; return; }
    local section=${BASH_REMATCH[1]} number=${BASH_REMATCH[2]} before=0
    [ -n "${sentences[$section]+yes}" ] || complain "line $1, sentence: no section has the short name $section"
    [ "$section" != examples ] || before=-1
    [ "$number" -eq $((${last[$section]:-$before} + 1)) ] || complain "line $1, sentence: $section $number is out of order"
    last[$section]=$number rows=$((rows + 1))
}

# an edit is cited, and what refuses it, a contract or a law by its whole path, is of its own crate
edit() { # NAME FILE
    local crate=${1%%/*} refuser
    [ -n "${cited[$1]+yes}" ] || complain "no row cites the edit \`$1\`"
    grep -q '^refused by: ' "$2" || complain "the edit \`$1\` has no line 'refused by:'"
    while read -r refuser; do
        refuses "$crate" "$refuser" || complain "the edit \`$1\` is refused by \`$refuser\`, which is no law or contract of its crate"
    done < <(sed -nE 's/^(also )?refused by: //p' "$2")
}
refuses() { # CRATE NAME
    local law=${2#"$1/proofs/"}
    case $2 in
        "$1::"*) [ -n "${there[$2]+yes}" ] ;;
        "$1/proofs/"*) [ -n "${there[$1/${law/.antt: /: }]+yes}" ] ;;
        *) false ;;
    esac
}

while IFS=$'\t' read -r one place line; do
    [ -z "${there[$one]+yes}" ] && there[$one]=$place:$line || there[$one]=several
done < <(tools/names.sh)
while IFS=$'\t' read -r line column text; do
    [ "$column" != row ] || { complain "line $line: $text"; continue; }
    [ "$column" != sentence ] || key "$line" "$text"
    cell "$line" "$column" "$text"
done < <(cells)
for section in "${!sentences[@]}"; do
    [ "${last[$section]:-none}" = "${sentences[$section]}" ] || complain "the last sentence of $section is not ${sentences[$section]}"
done
edits=0
for one in crates/*/must-fail/*.edit; do
    label=${one#crates/} label=${label%.edit}
    edit "${label/\/must-fail\///}" "$one"
    edits=$((edits + 1))
done
[ "$wrong" -eq 0 ] || exit 1
echo "trace: $rows sentences, ${#cited[@]} names, $edits edits, all there"

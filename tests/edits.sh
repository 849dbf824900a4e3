#!/usr/bin/env bash
# Whether every must-fail edit was refused for the reason that it names. Each has one line `refused by: NAME`, the name in a form of docs/TRACE.md: a law or theorem
# (`CRATE/proofs/FILE.antt: NAME`) or a contract (`CRATE::FUNCTION`). Read is what the gate said of each, its first error, and nothing is proved for it. Where an edit has
# a line `also refused by:`, that law is false under it too: of that the gate says nothing, so these edits are checked once more, in a copy of their crate.
# Usage: edits.sh [LOG], by default log/gate.log, what `rt ci` or `rt must-fail` said
set -euo pipefail
cd "$(dirname "$0")/.."
log=${1:-log/gate.log}
edits=0 again=0 wrong=0
complain() { echo "tests/edits: $*" >&2; wrong=$((wrong + 1)); }
[ -f "$log" ] || { complain "no $log: run the gate first"; exit 1; }
copy=$(mktemp -d)
trap 'rm -rf "$copy"' EXIT

# the function that has the line of a source file, its attributes among its lines, a method by its type's name too, as tools/names.sh has it
function_at() { # CRATE FILE LINE
    local at name
    read -r at name < <(awk -v last="$3" '
        /^ *#\[/ { if (!start) start = FNR; inside = !/\]$/; next }
        inside { inside = !/\]$/; next }
        match($0, /fn [a-z_0-9]+/) && (start ? start : FNR) <= last { at = FNR; name = substr($0, RSTART + 3, RLENGTH - 3) }
        { start = 0 }
        END { print at, name }' "$2")
    tools/names.sh | awk -F '\t' -v file="$2" -v at="$at" -v name="$1::$name" '$2 == file && $3 == at { name = $1 } END { print name }'
}
# the goals that say what a function ensures, what its loop keeps and that it ends, and what it owes to a function that it calls and to a type of which it makes a value,
# are refused by its contract
contract='^(returns(-.*)?|loop-.*-(init|preserved|smaller)|.*-requires(-.*)?|invariant_of-.*)$'
# where the first error is that the gate tells, by the name of a law or contract if it is one
place() { # CRATE ERROR
    local file line error name='no name'
    [[ $2 =~ (note:\ )?(\./)?([^ :]+):([0-9]+):[0-9]+:\ (error:\ )?(.*) ]] || { echo nothing; return; }
    file=${BASH_REMATCH[3]} line=${BASH_REMATCH[4]}
    # where no proof was found the goal stands in brackets, behind what it asks
    error=${BASH_REMATCH[6]}
    if [[ $error =~ ^(it\ is\ not\ proved|\`search\`) && $error =~ \(\`([^\`]+)\`\) ]] || [[ $error =~ \`([^\`]+)\` ]]; then name=${BASH_REMATCH[1]}; fi
    if [[ $name =~ $contract && $file == proofs/*/*.antt ]]; then
        # a method has a folder in its type's
        file=${file#proofs/} file=${file%/*}
        echo "$1::${file//\//::}"
    elif [[ $file == src/* && $name =~ $contract ]]; then
        function_at "$1" "crates/$1/$file" "$line"
    else
        echo "$1/$file: $name"
    fi
}

# what the first error says where the edit only made the proof unfit: a name that is gone, or a limit reached
unfit='has no (field )?`|is not in scope|step limit|only because a proof file names|only by a limit'

# the crate and those that it rests on, with their sources as they stand
copied() { # CRATE
    local name
    tools/rests.sh "$1" >"$copy/crates.txt"
    mkdir -p "$copy/.git" "$copy/crates"
    while IFS=': ' read -r name _; do
        [ -d "$copy/crates/$name" ] || { mkdir "$copy/crates/$name" && cp -r "crates/$name/"{src,specs,proofs} "$copy/crates/$name"; }
    done <"$copy/crates.txt"
}
# makes the edit in the copy
edited() { # CRATE EDIT
    local line file='' old='' text
    while IFS= read -r line; do
        case $line in
        'file: '*) file=$copy/crates/$1/${line#file: } ;;
        'old: '*) old=${line#old: } ;;
        'new:'*)
            line=${line#new:}
            text=$(<"$file")
            printf '%s\n' "${text/"$old"/"${line# }"}" >"$file"
            ;;
        esac
    done <"$2"
}
# whether a law is false under the edit too, and not only out of reach
refuses_too() { # CRATE EDIT LAW
    local file=${3%%: *} name=${3#*: }
    copied "$1"
    edited "$1" "$2"
    (cd "$copy/crates/$1" && rt check || true) >"$copy/said" 2>&1
    rm -r "$copy/crates/$1/"{src,specs,proofs}
    cp -r "crates/$1/"{src,specs,proofs} "$copy/crates/$1"
    again=$((again + 1))
    grep -qaE "${file#"$1/"}:[0-9]+:[0-9]+: error: \`$name\`: " "$copy/said"
}

for edit in crates/*/must-fail/*.edit; do
    IFS=/ read -r _ crate _ label <<<"${edit%.edit}"
    edits=$((edits + 1))
    said=$(grep -aF "must-fail $crate/$label.edit: " "$log" | tail -n 1) || { complain "$log says nothing of $crate/$label: run the gate"; continue; }
    [[ $said == *': refused, as it must be'* ]] || { complain "$crate/$label was not refused: ${said:0:200}"; continue; }
    at=$(place "$crate" "${said#*: refused, as it must be: }")
    named=$(sed -n 's/^refused by: //p' "$edit")
    [ -n "$named" ] || { complain "$crate/$label does not name what refuses it; first did $at"; continue; }
    [ "$at" = "$named" ] || { complain "$crate/$label is refused by $at first, and not by $named"; continue; }
    [[ $at != "$crate/specs/"* && ! $said =~ $unfit ]] || complain "$crate/$label only made a definition or its proof unfit: ${said:0:300}"
    also=$(sed -n 's/^also refused by: //p' "$edit")
    [ -z "$also" ] || refuses_too "$crate" "$edit" "$also" || complain "$crate/$label is not refused by $also"
done
[ "$wrong" -eq 0 ] || exit 1
echo "tests/edits: $edits edits, each refused by what it names; $again of them checked again, for what refuses them too"

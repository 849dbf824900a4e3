#!/usr/bin/env bash
# Whether docs/DEMANDS.md says what is there: every quoted formula stands so in the file named above it, and no word of one is left unexplained; every name is there;
# every clause has its cells and a wrong edit, or says why there is none; every entry of the header is named, and none has a `requires`; the theorem on refused calls has
# every entry, and as many arguments as the entries may write; what C calls has the contract of the entry of its name.
# Usage: demands.sh [FILE], by default docs/DEMANDS.md
set -euo pipefail
root=$(cd "$(dirname "$0")/.." && pwd)
page=$(realpath "${1:-$root/docs/DEMANDS.md}")
cd "$root"
formulas=0 wrong=0
complain() { echo "tests/demands: $*" >&2; wrong=$((wrong + 1)); }

# ---- formulas

# the lines of the page that stand in a formula, or that do not
part() { # inside|outside
    awk -v want="$1" '/^```/ { inside = !inside; next } inside == (want == "inside")' "$page"
}
form='^([a-z_0-9]+/(specs|proofs)/[^ ]+\.antt: [^ ]+|[a-z_0-9]+::[a-z_0-9]+|[a-z]+[a-z_0-9]*/[^ :]+)$'
in_backticks() { grep -o '`[^`]*`' | tr -d '`'; }
# a part that is taken of something, as in `h.cycles`, is a word of its own
words() { sed -E 's#(--|//) .*##; s/\.([A-Za-z0-9])/ \1/g' | tr -s ' (){};,' '\n' | sed -E 's/^\.|\.$//g; /^$/d' | sort -u; }
# what the readings speak of: names that are only cited explain nothing
explained() { part outside | sed -n '/^## The symbols/,$p' | in_backticks | grep -vE "$form" | words; }

quoted() { # LINE FILE TEXT: the text is whole lines of the file, one after the other
    formulas=$((formulas + 1))
    [ -f "$2" ] || { complain "line $1: no file is named above the formula"; return; }
    [[ $'\n'$(<"$2")$'\n' == *$'\n'"$3"* ]] || complain "line $1: the formula does not stand so in $2"
}

number=0 above='' inside='' text=''
while IFS= read -r line; do
    number=$((number + 1))
    case $inside$line in
        '```'*) inside=yes text='' ;;
        'yes```'*) quoted "$number" "$above" "$text"; inside='' above='' ;;
        yes*) text+=$line$'\n' ;;
        ?*) above=$(sed -nE 's/.*`([^`]+)`:$/\1/p' <<<"$line") ;;
    esac
done <"$page"
[ "$formulas" -gt 0 ] || complain "no formula is quoted"
while read -r word; do complain "'$word' stands in a formula, and the text does not speak of it"; done < <(comm -23 <(part inside | words) <(explained))

# ---- names

declare -A places=()
while IFS=$'\t' read -r name file _; do places[$name]+=" $file "; done < <(tools/names.sh)
is_there() { # NAME, in one of the page's forms; a definition or theorem stands with its whole path
    local file=${1%%: *}
    case $1 in
        */*.antt:\ *) file=${file%.antt} && [[ ${places[${file%%/*}/${file##*/}: ${1#*: }]-} == *" crates/$file.antt "* ]] ;;
        *) [ -n "${places[$1]-}" ] || [ -e "$1" ] ;;
    esac
}
names=$(part outside | in_backticks | grep -E "$form" | grep -vE '^crates?(/(specs|proofs)/File\.antt: name|::name|/edit|s/crate/must-fail/edit\.edit)$' | sort -u)
while read -r name; do is_there "$name" || complain "\`$name\` is not there"; done <<<"$names"

# ---- clauses

# "LINE TEXT" of each row of a table of clauses that is not whole
clauses() {
    awk -F '|' '
        /^\| clause / { table = 1; next }
        !/^\|/ { table = 0 }
        !table || /^\|-/ { next }
        { rows++ }
        NF != 6 { print NR, NF - 2 " cells, and not 4"; next }
        $2 !~ /^ [("][^ ]/ || $3 !~ /[a-z]/ || $4 !~ /[a-z]/ { print NR, "an empty cell" }
        $5 !~ /`[a-z_]+\/[a-z_0-9]+`/ && $5 !~ /^ none: [a-z]/ { print NR, "neither an edit nor \"none:\"" }
        END { if (!rows) print NR, "no clause" }' "$page"
}
while read -r at what; do complain "line $at: $what"; done < <(clauses)
while read -r span; do complain "\`$span\` is cited, and is no name of a known form"; done < <(
    awk -F '|' '/^\| clause / { table = 1 } !/^\|/ { table = 0 } table { print $4, $5 }' "$page" | in_backticks | grep -vE "$form")
kept=crates/theorem_refused/specs/Kept.antt
for entry in $(sed -nE 's/^uint32_t (gm_[a-z_]+)\(.*/\1/p' include/gm.h); do
    grep -qx "gm::$entry" <<<"$names" || complain "the entry $entry is not named"
    grep -q "${entry//_/-}\.Learnt" "$kept" || complain "$kept has no field for the entry $entry"
done
written=$(grep -o "&mut" crates/gm/src/lib.rt | wc -l)
said=$(awk '/^  pub [a-z_]+ :/ { field = $2 } { while (match($0, /Kept a[.0-9]+ s[.0-9]+/)) { print field, substr($0, RSTART, RLENGTH); $0 = substr($0, RSTART + RLENGTH) } }' "$kept" |
    sort -u | wc -l)
[ "$said" -eq "$written" ] || complain "$kept says of $said arguments that a refused call keeps them, and the entries are lent $written to write"
! grep -n requires crates/gm/src/lib.rt crates/gm_c/src/lib.rt crates/row_press/src/lib.rt >&2 || complain "an entry has a 'requires'"
# what C calls is gm_c, whose functions have the arguments and the contracts of the entries of gm: each up to its body, without its layout
contracts() { # CRATE
    awk '
        /^pub .*fn gm_/ { sub(/^pub (extern "C" )?/, ""); reading = 1 }
        reading && /^\{/ { gsub(/ /, "", text); gsub(/,\)/, ")", text); print text; reading = 0; text = "" }
        reading { text = text $0 }' "crates/$1/src/lib.rt"
}
diff <(contracts gm) <(contracts gm_c) >&2 || complain "a function of gm_c has not the contract of the entry of gm of its name"
[ "$(contracts gm_c | wc -l)" -eq "$(grep -c '^uint32_t gm_' include/gm.h)" ] || complain "gm_c has not as many functions as the header"

[ "$wrong" -eq 0 ] || exit 1
echo "demands: $formulas formulas as in their files, $(part inside | words | wc -l) words of them explained, $(wc -l <<<"$names") names there"

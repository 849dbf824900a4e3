#!/usr/bin/env bash
# Writes evidence.txt, for the record of a delivery: kit, commit, sums of the files delivered, and what the last `make test` tested, proved, refused and compared. It
# reads the logs of that run, and proves nothing but what tests/edits.sh does. What is missing, failed, or other than what was tested is said in the text, first of all, and the command fails.
# Usage: evidence.sh begin, as `make test` begins; evidence.sh passed "TEST..." FILE..., when its tests have passed; evidence.sh VERSION FILE... afterwards
set -euo pipefail
cd "$(dirname "$0")/.."
begun=log/begun tested=log/tested gate=log/gate.log compared=log/compared.log
lacking=
lacks() { lacking+="NOT EVIDENCE: $*"$'\n'; }

# the C functions whose contracts are assumed, by these programs and by no other crate: docs/SAFETY.md, "How a builder checks the delivery", step 3
assumed='axioms of grouprun: 6, libc::isatty libc::read libc::write os::c::rattle_arg os::c::rattle_errno os::c::rattle_set_errno
axioms of quietrun: 6, libc::isatty libc::read libc::write os::c::rattle_arg os::c::rattle_errno os::c::rattle_set_errno
axioms of rowrun: 4, libc::read libc::write os::c::__xpg_strerror_r os::c::rattle_errno
axioms of vectors: 3, libc::write os::c::__xpg_strerror_r os::c::rattle_errno'

# what a run of the tests belongs to
state() {
    echo "kit: $(rt version)"
    echo "commit: $(git rev-parse HEAD 2>/dev/null || echo none)"
    if [ -z "$(git status --porcelain 2>&1)" ]; then echo "tree: as committed"; else echo "tree: changed"; fi
}
# nothing is taken away before the gate: a log that is older than this is of an earlier run
begin() {
    mkdir -p log
    state >"$begun"
}
of_this_run() { [ "$1" -nt "$begun" ]; } # LOG
# the sums of the files that were tested
passed() { # "TEST..." FILE...
    { echo "tests passed: $(wc -w <<<"$1"), $1"; sha256sum "${@:2}"; } >"$tested"
}

# the repository is as committed, and as it was when the tests began
one_state() {
    local now
    now=$(state)
    echo "$now"
    [[ $now != *'commit: none'* && $now == *'tree: as committed' ]] || lacks "the files here are not those of a commit"
    [ ! -f "$begun" ] || [ "$now" = "$(<"$begun")" ] || lacks "the last make test was of another state: $(paste -s -d ' ' "$begun")"
}
# the last make test came to its end
came_to_end() {
    if [ ! -f "$begun" ]; then
        lacks "make test was not run: run make test first"
    elif ! of_this_run "$tested" || ! of_this_run "$gate"; then
        lacks "the last make test did not come to its end: run make test again"
    fi
    of_this_run "$tested" && of_this_run "$gate"
}

# in the form that sha256sum -c reads
sums() { # FILE...
    local file sum
    for file; do
        sum=$(sha256sum "$file" 2>/dev/null) || { lacks "$file is not built"; continue; }
        echo "$sum"
        grep -qxF -- "$sum" "$tested" || lacks "$file is not the one that was tested"
    done
}

# the gate's last line, and when it was written; the proofs; the edits
gate() {
    local crates edits last proofs refused
    crates=$(grep -c '^[^#]' crates.txt) edits=$(find crates -path '*/must-fail/*.edit' | wc -l) last=$(tail -n 1 "$gate")
    proofs=$(proofs "$crates")
    refused=$(grep -ac '^rt: must-fail .*: refused, as it must be' "$gate" || true)
    echo "gate: $last ($(date -u -r "$gate" '+%F %T') UTC)"
    [ "$last" = "$((crates + edits)) passed, 0 failed" ] || lacks "$crates crates and $edits edits were to pass, and the gate says: $last"
    echo "crates proved: $proofs"
    [ "${proofs%%,*}" = "$crates of $crates" ] || lacks "not every crate is proved with no more trusted than the kit and the crates that it rests on"
    named_axioms <<<"$proofs" || lacks "the axioms are not those that docs/SAFETY.md names"
    echo "edits refused: $refused of $edits"
    [ "$refused" = "$edits" ] || lacks "not every edit was refused"
    tests/edits.sh 2>&1 || lacks "not every edit was refused by what it names"
}

# of each crate that this run proved, by the line on its proof, which comes before the line that names the crate; and of each that an earlier run on this machine
# proved, of the same files, which the kit takes by their checksums
proofs() { # CRATES
    awk -v crates="$1" '
        /^axioms / && !/: none reached/ { sub(/^axioms [^ ]+/, ""); sub(/ \(.*/, ""); gsub(/,/, ""); names = names $0 }
        /^logic=/ { logic = $0 }
        logic ~ /^logic=proved / && logic !~ /foreign=|pinned=no|cache=trusted|incremental=trusted/ && /^rt: [^ ]+ proved$/ {
            proved++
            axioms = match(logic, / axioms=[0-9]+/) ? substr(logic, RSTART + 8, RLENGTH - 8) + 0 : 0
            if (axioms > 0 || names != "") some = some "\naxioms of " $2 ": " axioms "," names
            else none++
        }
        /^rt: [^ ]+ is kept: / { kept++ }
        /^rt: / { names = logic = "" }
        END { print proved + kept " of " crates ", " proved + 0 " of them in this run, without an axiom " none + 0 some }' "$gate"
}
# no crate has axioms but those that may, and such a one, where this run proved it, all of its own
named_axioms() {
    local line
    while read -r line; do
        grep -qxF -- "$line" <<<"$assumed" || return 1
    done < <(grep '^axioms')
}

# what the comparison with other code says of its seeds and numbers; each of its parts must have come to its end, and each entry of the header have been called
compared() {
    local line absent=
    grep -asE '^(stored|compare|press|printed|demand3): |^gm_[a-z_]+ +[0-9]+ calls' "$compared" | grep -v ': mistake ' || true
    while read -r line; do
        grep -qasE "^$line" "$compared" || absent+=" '$line'"
    done < <(printf '%s\n' 'stored: [0-9]+ votes and decisions' 'compare: [0-9]+ calls agree' 'press: all presses agree' 'printed: [0-9]+ tables agree' 'demand3: all claims hold' &&
        sed -nE 's/^uint32_t (gm_[a-z_]+).*/\1 +[1-9][0-9]* calls/p' include/gm.h)
    [ -z "$absent" ] || lacks "the comparison with other code has no line$absent"
}

evidence() { # VERSION FILE...
    echo "Evidence for the library gm $1, written $(date -u '+%F %T') UTC. docs/SAFETY.md, \"The evidence\", says how it is used."
    one_state
    came_to_end || return 0
    sums "${@:2}"
    grep '^tests passed: ' "$tested"
    gate
    compared
}

case ${1-} in
begin | passed) "$@"; exit ;;
esac
mkdir -p log
rm -f evidence.txt
evidence "$@" >log/evidence
printf '%s' "$lacking" | cat - log/evidence >evidence.txt
[ -z "$lacking" ] || { printf '%s' "$lacking" >&2; exit 1; }
echo "evidence.txt is written"

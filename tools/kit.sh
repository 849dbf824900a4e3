#!/usr/bin/env bash
# Runs a command of the Rattle kit in a folder. What the kit says goes to log/NAME.log. Told on standard error: how long it takes and where the log is, then how far it
# is, on a terminal in one line that is rewritten, else in a line for each crate; and if it fails, the lines that say why. It is silent where nothing has to be proved and
# the kit never pauses for a second. The exit status is the kit's.
# Usage: kit.sh NAME TIME FOLDER COMMAND..
set -euo pipefail
cd "$(dirname "$0")/.."
log=$PWD/log/$1.log time=$2 folder=$3
shift 3

# how many crates the one of the folder rests on, itself among them; every crate at the top
crates=$(tools/rests.sh "${folder##*/}" | wc -l) crate=0 told=

place() { # AHEAD: 0 for the crate that was done last, 1 for the one in work
    local at=$((crate + $1))
    echo "crate $((at < crates ? at : crates)) of $crates, $SECONDS s"
}
tell() { # COMMAND-WORDS [LINE]
    [ -n "$told" ] || echo "$1: from nothing $time; what it says goes to ${log#"$PWD/"}" >&2
    told=yes
    if [ -t 2 ]; then printf '\r%-40s' "$(place 1)" >&2; elif [ $# -gt 1 ]; then echo "$(place 0): $2" >&2; fi
}
# the lines of the kit that say how far it is: of the gate on each crate, of other commands on each library that had to be proved; a crate that is proved already only counts
step() { # COMMAND-WORDS LINE
    local line
    case $2 in
    'rt: '*': its tests '*) return 0 ;;
    'rt: '*' is kept: '*) crate=$((crate + 1)) ;;
    'rt: '*' proved' | 'rt: '*' NOT PROVED'*) crate=$((crate + 1)); tell "$1" "${2#rt: }" ;;
    'crate '*': modules loaded='*) crate=$((crate + 1)) line=${2%: modules*}; tell "$1" "${line#crate } proved" ;;
    esac
}
progress() { # COMMAND-WORDS
    local line status
    while :; do
        status=0
        IFS= read -r -t 1 line || status=$?
        if [ "$status" -eq 0 ]; then step "$1" "$line"; elif [ "$status" -gt 128 ]; then tell "$1"; else break; fi
    done
    if [ -n "$told" ] && [ -t 2 ]; then printf '\r%-40s\n' "$(place 1)" >&2; fi
}

# what a failed command said of it, or else its last lines
reasons() {
    awk '/: error: |: error\[|NOT PROVED|NOT REFUSED|NOT TRIED|BAD EDIT|FAILED|^[0-9]+ passed, / && !/: its library / && n++ < 20 { print substr($0, 1, 300) } END { exit !n }' "$log" ||
        tail -n 10 "$log"
}

mkdir -p log
status=0
(cd "$folder" && exec "$@") 2>&1 | tee "$log" | grep -a --line-buffered -E '^(rt: |crate )' | progress "$*" || status=${PIPESTATUS[0]}
[ "$status" -eq 0 ] || { reasons; echo "$* failed; the whole of what it said is in ${log#"$PWD/"}"; } >&2
exit "$status"

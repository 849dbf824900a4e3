#!/usr/bin/env bash
# Whether the examples of the programs' manual pages print what stands there, page by page and in their order, and a page fits a terminal of 80 columns.
# Usage: pages.sh GROUPRUN QUIETRUN TABLETEXT BUILD-FOLDER
set -euo pipefail
programs=$(dirname "$(realpath "$1")"):$(dirname "$(realpath "$2")"):$(dirname "$(realpath "$3")") here=$(realpath "$(dirname "$0")")
work=$(mktemp -d -p "$(realpath "$4")")
trap 'rm -rf "$work"' EXIT
count=0 widths="widths NOT TRIED, since groff is not installed"
fail() { echo "tests/pages: $*" >&2; exit 1; }

# "$ COMMAND", "> COMMAND" where it goes on in a further line, and what it prints: a line that is set in goes on with the one before
examples() { # PAGE
    awk '
        /^\.(nf|fi)$/ { shows = asks = 0; next }
        { begins = sub(/^\$ \\fB/, ""); ends = sub(/\\fP$/, "") }
        begins { shows = asks = 1; printf "\n$ %s", $0 }
        asks && !begins { printf "\n> %s", $0 }
        shows && !asks { printf "%s", sub(/^ +/, " ") ? $0 : "\n" $0 }
        ends { asks = 0 }
        END { print "" }' "$1" | sed -e 1d -e 's/\\-/-/g' -e "s/\\\\(aq/'/g" -e 's/\\e/\\/g'
}

# a file that is shown is made, for the commands that follow; that it is shown so is no example
try() { # PAGE COMMAND DUE
    local given
    [[ $2 != 'cat '* ]] || { printf '%s' "$3" >"${2#cat }"; return; }
    given=$(PATH=$programs:$PATH timeout 20 sh -c "$2" 2>&1) || true
    [ "$given" = "${3%$'\n'}" ] || fail "$1: '$2' prints '$given' and not '${3%$'\n'}'"
    count=$((count + 1))
}

try_examples() { # PAGE
    local line command='' due=''
    while IFS= read -r line; do
        case $line in
        '$ '*)
            [ -z "$command" ] || try "$1" "$command" "$due"
            command=${line#* } due=''
            ;;
        '> '*) command+=$'\n'${line#* } ;;
        *) due+=$line$'\n' ;;
        esac
    done < <(examples "$here/../man/$1")
    [ -n "$command" ] || fail "$1 has no example"
    try "$1" "$command" "$due"
}

narrow() { # PAGE
    local wide
    command -v groff >/dev/null || return 0
    wide=$(groff -man -Tascii -P-cbou -rLL=80n "$here/../man/$1" | awk 'length > 80')
    [ -z "$wide" ] || fail "$1 has lines of more than 80 columns: $wide"
    widths="no line is wider than 80 columns"
}

for page in grouprun.1 quietrun.1 tabletext.1; do
    mkdir "$work/$page"
    cd "$work/$page"
    try_examples "$page"
    narrow "$page"
done
echo "tests/pages: $count examples of the manual pages print what stands there; $widths"

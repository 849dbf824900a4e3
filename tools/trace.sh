#!/usr/bin/env bash
# Writes docs/TRACE.html from docs/TRACE.md: every name is a link to its line in a page below docs/trace, one for each file that is cited. Usage: trace.sh
set -euo pipefail
cd "$(dirname "$0")/.."
rm -rf docs/trace

# a path, marked, and what its page shows: the names in a folder, a table file in hexadecimal, any other file as it is
shown() { # PATH
    printf '\001%s\n' "$1"
    if [ -d "$1" ]; then
        ls "$1"
    elif [[ $1 == *.tab ]]; then
        od -A d -t x1 "$1"
    else
        cat "$1"
    fi
}

awk -f tools/html.awk -f tools/table.awk <(tools/names.sh) docs/TRACE.md docs/TRACE.md >docs/TRACE.html
cited=$(sed 's/<a /\n&/g' docs/TRACE.html | sed -nE 's#^<a href="trace/([^"]+)\.html\#.*#\1#p' | sort -u)
sed 's#^#docs/trace/#; s#/[^/]*$##' <<<"$cited" | xargs mkdir -p
while read -r path; do shown "$path"; done <<<"$cited" | awk -f tools/html.awk -f tools/pages.awk
echo "docs/TRACE.html, with $(wc -l <<<"$cited") pages below docs/trace"

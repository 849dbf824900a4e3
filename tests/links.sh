#!/usr/bin/env bash
# Whether docs/TRACE.html, as `make trace` writes it, leads where it says: every name in a table of docs/TRACE.md is a link, and the line it leads to holds
# the name; a link to a whole file or edit leads to the page with its path. Usage: links.sh
set -euo pipefail
cd "$(dirname "$0")/../docs"
fail() { echo "tests/links: $*" >&2; exit 1; }

# "NAME PAGE LINE" of each link in a table, divided by tabs
links=$(grep '^<tr' TRACE.html | sed 's/<a /\n&/g' | sed -nE 's#^<a href="(trace/[^"]+\.html)\#L([0-9]+)"[^>]*><code>([^<]+)</code></a>.*#\3\t\1\t\2#p')
names=$(sed -n '/^|/p' TRACE.md | grep -o '`[^`]*`' | tr -d '`')
[ "$(cut -f 1 <<<"$links")" = "$names" ] || fail "the links of the tables are not the names of docs/TRACE.md"

mapfile -t pages < <(cut -f 2 <<<"$links" | sort -u)
wrong=$(awk '
    function plain(s) { gsub(/<[^>]*>/, "", s); return s }
    # whether s has the word w, with nothing before and after that could belong to a name
    function holds(s, w,  at) {
        at = index(s, w)
        if (at == 0) return 0
        if (substr(s, at + length(w), 1) !~ /[A-Za-z0-9_-]/ && (at == 1 || substr(s, at - 1, 1) !~ /[A-Za-z0-9_-]/)) return 1
        return holds(substr(s, at + 1), w)
    }
    # the path ends with the name; an edit is named without what all edits share
    function leads(path, name) {
        if (path ~ /\.edit$/) { sub(/^crates\//, "", path); sub(/\/must-fail\//, "/", path); sub(/\.edit$/, "", path); return path == name }
        return substr("/" path, length(path) - length(name) + 1) == "/" name
    }
    NR == FNR { link[NR] = $0; count = NR; next }
    /^<h1>/ { path[FILENAME] = plain($0) }
    match($0, /^<span id="L[0-9]+">/) { text[FILENAME, substr($0, 12, RLENGTH - 13)] = plain($0) }
    END {
        for (i = 1; i <= count; i++) {
            split(link[i], part, "\t")
            name = word = part[1]
            said = text[part[2], part[3]]
            if (name ~ /^DECISIONS /) right = index(said, substr(name, 11) ". ") == 1
            else if (sub(/.*: |.*::/, "", word)) right = holds(said, word)
            else right = leads(path[part[2]], name)
            if (!right) print name
        }
    }' <(cat <<<"$links") "${pages[@]}")
[ -z "$wrong" ] || fail "a link leads to another line or file: ${wrong//$'\n'/, }"
echo "links: $(wc -l <<<"$names") names lead to their lines in ${#pages[@]} pages"

# docs/TRACE.md as a page: headings, paragraphs, lists and tables. Its input is what tools/names.sh writes, then docs/TRACE.md twice, first for its contents.

BEGIN {
    style = "body { font: 15px/1.45 sans-serif; margin: 2em auto; max-width: 110em; padding: 0 1.5em; color: #222 }\n" \
        "p, li { max-width: 60em }\n" \
        "table { border-collapse: collapse; width: 100%; table-layout: fixed; margin: 1em 0 }\n" \
        "th, td { border: 1px solid #ccc; padding: .35em .55em; text-align: left; vertical-align: top; overflow-wrap: anywhere }\n" \
        "th { background: #eee; position: sticky; top: 0 }\n" \
        "tr:target td { background: #fff3c4 }\n" \
        "code { font-size: 88% }\n" \
        "a { color: #0645ad; text-decoration: none }\n" \
        "a:hover { text-decoration: underline }\n" \
        "td a { display: inline-block; max-width: 100% }\n"
}

# a name is a link to its place; other code is only shown
function named(s) {
    if (!(s in file)) return "<code>" escaped(s) "</code>"
    return "<a href=\"trace/" file[s] ".html#L" line[s] "\" title=\"" file[s] ":" line[s] "\"><code>" escaped(s) "</code></a>"
}

# a text with its links to other documents
function linked(s,  mid) {
    s = escaped(s)
    while (match(s, /\[[^]]+\]\([^)]+\)/)) {
        mid = index(substr(s, RSTART), "](")
        s = substr(s, 1, RSTART - 1) "<a href=\"" substr(s, RSTART + mid + 1, RLENGTH - mid - 2) "\">" substr(s, RSTART + 1, mid - 2) "</a>" \
            substr(s, RSTART + RLENGTH)
    }
    return s
}

# what stands between backticks is every second part
function inline(s,  i, n, part, out) {
    n = split(s, part, "`")
    for (i = 1; i <= n; i++) out = out (i % 2 == 1 ? linked(part[i]) : named(part[i]))
    return out
}

function anchor(s) {
    s = tolower(s)
    gsub(/[^a-z0-9]+/, "-", s)
    return s
}

# a row that begins with a sentence has its short name and number as its anchor
function row(s, tag,  i, n, cell, out) {
    n = split(s, cell, / *\| */)
    for (i = 2; i < n; i++) out = out "<" tag ">" inline(cell[i]) "</" tag ">"
    return "<tr" (match(cell[2], /^[a-z]+ [0-9]+ /) ? " id=\"" anchor(substr(cell[2], 1, RLENGTH - 1)) "\"" : "") ">" out "</tr>"
}

# ends what is open: a paragraph, a list or a table
function end_block() {
    if (kind == "p") print "<p>" inline(text) "</p>"
    if (kind == "ul") print "<li>" inline(text) "</li>\n</ul>"
    if (kind == "table") print "</tbody>\n</table>"
    kind = ""
}

FNR == 1 { inputs++ }
inputs == 1 { split($0, place, "\t"); file[place[1]] = place[2]; line[place[1]] = place[3]; next }
inputs == 2 && /^## / { contents = contents "<li><a href=\"#" anchor(substr($0, 4)) "\">" escaped(substr($0, 4)) "</a></li>\n" }
inputs == 2 { next }
/^# / { print begun(substr($0, 3), style) "<h1>" escaped(substr($0, 3)) "</h1>\n<ul>\n" contents "</ul>"; next }
/^## / { end_block(); print "<h2 id=\"" anchor(substr($0, 4)) "\">" escaped(substr($0, 4)) "</h2>"; next }
/^$/ { end_block(); next }
/^\|[-|]+$/ { next }
/^\|/ && kind == "table" { print row($0, "td"); next }
/^\|/ { end_block(); kind = "table"; print "<table>\n<thead>" row($0, "th") "</thead>\n<tbody>"; next }
/^- / && kind == "ul" { print "<li>" inline(text) "</li>"; text = substr($0, 3); next }
/^- / { end_block(); kind = "ul"; print "<ul>"; text = substr($0, 3); next }
kind == "" { kind = "p"; text = $0; next }
{ text = text "\n" $0 }
END { end_block(); print "</body>\n</html>" }

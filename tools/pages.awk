# A page with numbered lines for each file of the input, below docs/trace. A line that begins with the character 1 gives the path of the file that follows.

BEGIN {
    style = "body { font: 15px/1.4 sans-serif; margin: 1.5em; color: #222 }\n" \
        "pre { counter-reset: line; white-space: pre-wrap }\n" \
        "pre span::before { counter-increment: line; content: counter(line); display: inline-block; width: 3em; margin-right: 1em;\n" \
        "    text-align: right; color: #999 }\n" \
        "pre span:target { background: #fff3c4 }\n"
}

function end_page() {
    if (page == "") return
    print "</pre>\n</body>\n</html>" > page
    close(page)
}

/^\001/ {
    end_page()
    path = substr($0, 2)
    page = "docs/trace/" path ".html"
    count = 0
    up = path
    gsub(/[^\/]+/, "..", up)
    print begun(path, style) "<p><a href=\"" up "/TRACE.html\">TRACE</a></p>\n<h1>" escaped(path) "</h1>\n<pre>" > page
    next
}
{ print "<span id=\"L" ++count "\">" escaped($0) "</span>" > page }
END { end_page() }

# What every page of tools/trace.sh shares.

function escaped(s) {
    gsub(/&/, "\\&amp;", s)
    gsub(/</, "\\&lt;", s)
    gsub(/>/, "\\&gt;", s)
    gsub(/"/, "\\&quot;", s)
    return s
}

# the beginning of a page; it is well-formed XML as well, so that any reader of XML can check it
function begun(title, style) {
    return "<!DOCTYPE html>\n<html xmlns=\"http://www.w3.org/1999/xhtml\" lang=\"en\">\n<head>\n<meta charset=\"utf-8\"/>\n<title>" escaped(title) \
        "</title>\n<style>\n" style "</style>\n</head>\n<body>\n"
}

#!/usr/bin/env bash
# What docs/TRACE.md can cite: a line for each name, with the file and the line where it stands, divided by tabs. Usage: names.sh
set -euo pipefail
cd "$(dirname "$0")/.."

# Files and folders, each by the end of its path that no other has, a folder by two parts of it or more. The path comes with its type before it, d for a folder.
places() {
    find tests examples crates/*/stdout -name target -prune -o -printf '%y/%p\n' | awk -F / '
        function end(parts, n, k,  i, s) { s = parts[n]; for (i = 1; i < k; i++) s = parts[n - i] "/" s; return s }
        { all[NR] = $0; split($0, parts, "/"); for (k = 1; k < NF; k++) count[end(parts, NF, k)]++ }
        END {
            for (i = 1; i <= NR; i++) {
                n = split(all[i], parts, "/")
                k = parts[1] == "d" && n > 2 ? 2 : 1
                while (k < n - 1 && count[end(parts, n, k)] > 1) k++
                print end(parts, n, k) "\t" end(parts, n, n - 1) "\t" 1
            }
        }'
}

# functions of the programs of the tests, in shell, C and Rust: the line that begins one
functions() {
    local programs
    mapfile -t programs < <(cut -f 2 <<<"$places" | grep -E '\.(sh|c|rs)$')
    awk '
        function tell(name) { print short[FILENAME] ": " name "\t" FILENAME "\t" FNR }
        NR == FNR { split($0, place, "\t"); short[place[2]] = place[1]; next }
        FILENAME ~ /\.sh$/ && match($0, /^[a-z_]+\(\) /) { tell(substr($0, 1, RLENGTH - 3)) }
        FILENAME ~ /\.c$/ && /^[a-z][^;]*$/ && match($0, /[ *][a-z_0-9]+\(/) { tell(substr($0, RSTART + 1, RLENGTH - 2)) }
        FILENAME ~ /\.rs$/ && match($0, /fn [a-z_0-9]+[<(]/) { tell(substr($0, RSTART + 3, RLENGTH - 4)) }' - "${programs[@]}" <<<"$places"
}

# definitions and theorems: a line that declares one
declarations() {
    find crates -name out -prune -o -name "*.antt" -print0 | xargs -0 awk '
        FNR == 1 { file = substr(FILENAME, 8); sub(/\/(specs|proofs)\//, "/", file); sub(/\.antt$/, "", file) }
        { i = 1 }
        $i == "unfoldable" || $i == "abbrev" { i++ }
        $i == "pub" { i++ }
        ($i == "record" || $i == "data") && $(i + 1) ~ /^[A-Za-z]/ { print file ": " $(i + 1) "\t" FILENAME "\t" FNR; next }
        $(i + 1) == ":" || ($(i + 1) ~ /^\{/ && $(i + 2) == ":") { print file ": " $i "\t" FILENAME "\t" FNR }'
}

# functions with an ensures, those of a type or of a trait by its name too; those that an impl has of a trait, whose contract are the trait's ghost members there, by
# the names of the type, of the trait and of the trait's argument, as the checker joins them; and types
contracts() {
    awk '
        function plain(s) { gsub(/<[^>]*>|^ +| +$/, "", s); return s }
        function large(s) { return toupper(substr(s, 1, 1)) substr(s, 2) }
        function owner_of(line,  s, n, part, argument) {
            s = line; sub(/ *\{.*/, "", s); sub(/^impl(<[^>]*>)? */, "", s)
            n = split(s, part, / for /)
            if (n == 1) return plain(part[1])
            argument = match(part[1], /<[A-Za-z0-9]+>/) ? substr(part[1], RSTART + 1, RLENGTH - 2) : ""
            return large(plain(part[2])) plain(part[1]) large(argument)
        }
        FNR == 1 { split(FILENAME, path, "/"); name = owner = ""; given = 0 }
        match($0, /^(pub )?(struct|enum|trait) [A-Za-z]+/) {
            n = split(substr($0, 1, RLENGTH), word, " "); print path[2] "::" word[n] "\t" FILENAME "\t" FNR
            if (word[n - 1] == "trait") owner = word[n] "::"
        }
        /^impl/ { owner = owner_of($0) "::"; given = / for / }
        match($0, /fn [a-z_0-9]+[(<]/) {
            name = owner substr($0, RSTART + 3, RLENGTH - 4); at = FNR
            if (given) { print path[2] "::" name "\t" FILENAME "\t" at; name = "" }
        }
        $1 == "ensures" && name != "" { print path[2] "::" name "\t" FILENAME "\t" at; name = "" }
        /^ *[{}]/ { name = "" }
        /^}/ { owner = ""; given = 0 }' crates/*/src/*.rt
}

places=$(places)
echo "$places"
functions
declarations
contracts
find crates -path '*/must-fail/*.edit' | sed -E 's#^crates/([^/]+)/must-fail/(.*)\.edit$#\1/\2\t&\t1#'
awk '
    /^#define [A-Z_]+ / { print "gm.h: " $2 "\t" FILENAME "\t" FNR }
    match($0, /^uint32_t [a-z_]+\(/) { print "gm.h: " substr($0, 10, RLENGTH - 10) "\t" FILENAME "\t" FNR }' include/gm.h
awk '/^[0-9]+\. / { print "DECISIONS " $1 + 0 "\t" FILENAME "\t" FNR }' docs/DECISIONS.md

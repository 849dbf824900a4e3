#!/usr/bin/env bash
# What grouprun or quietrun does with arguments and on a terminal, and the shell of grouprun's manual page that tells a whole run from others.
# Usage: arguments.sh PROGRAM TABLETEXT VERSION BUILD-FOLDER
set -euo pipefail
program=$(realpath "$1") called=$(basename "$1") tabletext=$(realpath "$2") version=$3 here=$(realpath "$(dirname "$0")")
work=$(mktemp -d -p "$4")
trap 'rm -rf "$work"' EXIT
manual=$here/../man/$called.1 table=$work/p1.tab out=$work/out message=$work/message rest=$work/rest
unwritten="$called: the output could not be written" count=0
fail() { echo "tests/arguments: $*" >&2; exit 1; }
"$tabletext" table <"$here/../examples/p1.txt" >"$table"

# runs a case with the table as standard input: status 0, and nothing of the table is read
answers() { # ARGUMENT..
    name="'$*'" name=${name:0:80}
    { timeout 20 "$program" "$@" >"$out" 2>"$message" && cat >"$rest"; } <"$table" || fail "$name: status $?"
    cmp -s "$rest" "$table" || fail "$name reads the table"
    count=$((count + 1))
}
silent() { [ ! -s "$1" ] || fail "$2: '$(head -c 80 "$1")' where nothing is expected"; }
says() { [ "$(<"$message")" = "$1" ] || fail "$2: '$(<"$message")' on standard error instead of '$1'"; }

# ---- what can be asked for
answers --version
silent "$message" --version
echo "$called $version" | cmp -s - "$out" || fail "--version prints '$(<"$out")', and the Makefile's version is $version"
answers --help
silent "$message" --help
cp "$out" "$work/help"
usage=$(head -n 1 "$work/help")
[[ $usage == "usage: $called "* ]] || fail "the help begins with '$usage'"
for word in --help --version table refused tabletext "$called(1)"; do
    grep -qF -e "$word" "$work/help" || fail "the help does not name $word"
done
expand "$work/help" | awk 'length > 80 { exit 1 }' || fail "a line of the help has more than 80 columns"
# the manual page has the options of the help, and no others
diff <(sed -nE 's/^\t(--[a-z]+) .*/\1/p' "$work/help") <(sed -nE '/^\.SH OPTIONS/,/^\.SH [^O]/s/^\.B \\-\\-/--/p' "$manual") ||
    fail "the options of the help (<) are not those of the manual page (>)"

# ---- everything else: one line on standard error, and nothing on standard output
wrong() { # ARGUMENT..
    answers "$@"
    silent "$out" "$name"
    says "$usage" "$name"
    [ "$(wc -l <"$message")" -eq 1 ] || fail "$name: not one line on standard error"
}
long=$(printf 'x%.0s' {1..100000})
for one in '' - -- -h -V --hel --helpx --Help help --versio --version=1 ' --help' $'--help\n' "$table" --help/5678901234 --help/56789012345 "--version$long" "$long"; do
    wrong "$one"
done
wrong --help x
wrong --version --help
wrong --help ''
wrong '' ''
wrong a b c

# ---- what is asked for, and cannot be written
for option in --help --version; do
    "$program" "$option" >/dev/full 2>"$message" || fail "$option, full output: status $?"
    says "$unwritten" "$option, full output"
    "$program" "$option" >&- 2>"$message" || fail "$option, closed output: status $?"
    says "$unwritten" "$option, closed output"
    count=$((count + 2))
done
"$program" x >"$out" 2>&- || fail "a wrong argument, closed standard error: status $?"
silent "$out" "a wrong argument, closed standard error"

# ---- no argument: the run, with a hint before it where the table would have to be typed
"$program" <"$table" >"$out" 2>"$message"
silent "$message" "a run"
cmp -s "$out" "$here/../examples/p1.out" || fail "without an argument another run is printed"
: | "$program" >"$out" 2>"$message"
silent "$message" "an empty pipe"
script -qec "'$program' >'$work/typed' 2>'$message'" /dev/null </dev/null
cmp -s "$out" "$work/typed" || fail "a terminal without input prints another run than an empty pipe"
[[ $(<"$message") == "$called: a table is expected "*"$called --help" && $(wc -l <"$message") -eq 1 ]] || fail "a terminal: '$(<"$message")' on standard error"
script -qec "'$program' --version 2>&1 >'$out' | cmp - /dev/null" /dev/null </dev/null || fail "--version on a terminal is answered with a hint"
count=$((count + 6))

# ---- the page of quietrun sends its reader to that of grouprun for all else
if [ "$called" != grouprun ]; then
    grep -q '^\.BR grouprun (1)' "$manual" || fail "the manual page of $called does not name grouprun(1)"
    echo "tests/arguments: $called: $count cases as named; the version is $version"
    exit
fi

# ---- the shell of the manual page, as a script that ends at a failure would have it: it goes on, and says whole of a whole run alone
judge=$(sed -n '/^\$ \\fBif err=/,/\\fP$/p' "$manual" | sed -e 's/^\$ \\fB//' -e 's/\\fP$//' -e 's/\\-/-/g' -e "s/\\\\(aq/'/g")
[ -n "$judge" ] || fail "the manual page has no shell that begins with 'if err='"
press=$work/press.tab run=$work/run.txt
said() { cd "$work" && PATH=$(dirname "$program"):$PATH "$1" -ec "$2$judge"$'\necho on' 2>/dev/null; } # SHELL BEFORE
judged() { # NAME EXPECTED [BEFORE]
    local shell given
    for shell in sh bash; do
        given=$(said "$shell" "${3-}") || fail "$1, in $shell: the shell of the manual page ends the script"
        [[ $given == $2$'\n'on ]] || fail "$1, in $shell: the shell of the manual page says '$given' and not '$2'"
    done
    count=$((count + 1))
}
cp "$table" "$press"
judged "a whole run" whole
cmp -s "$run" "$here/../examples/p1.out" || fail "the shell of the manual page keeps another run"
judged "a run ended by a signal" 'not whole: *' 'ulimit -f 0; '
judged "a run that reaches the limit of a file" "not whole: $unwritten" "trap '' XFSZ; ulimit -f 0; "
ln -sf /dev/full "$run"
judged "a run that cannot be written" "not whole: $unwritten"
rm "$run"
"$tabletext" table <"$here/../examples/p2.txt" >"$press"
judged "a run with a line broken" whole
grep -q broken "$run" || fail "the run of examples/p2.txt has no line broken"
head -c 100 "$table" >"$press"
judged "a refused table" 'not whole: see run.txt'
: >"$press"
judged "an empty table" 'not whole: see run.txt'
rm "$press"
echo old >"$run"
judged "no table" 'not whole: *press.tab*'
silent "$run" "the run of no table"
mkdir "$press"
judged "a table that cannot be read" 'not whole: grouprun: the input could not be read'
echo "tests/arguments: $called: $count cases as named; the version is $version"

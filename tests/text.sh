#!/usr/bin/env bash
# Whether texts and tables turn into each other and back, and every error is named with its place; the same again in a build with the compiler's sanitizers.
# Usage: text.sh TABLETEXT BUILD-FOLDER
set -euo pipefail
built=$1 build=$2 here=$(dirname "$0")
version=$(sed -n 's/^VERSION = //p' "$here/../Makefile")
checked=$build/tabletext.checked
mkdir -p "$build"
out=$build/text.result message=$build/text.message input=$build/text.input table=$build/text.table
trap 'rm -f "$out" "$message" "$input" "$table"' EXIT
fail() { echo "tests/text: ${tool##*/}: $*" >&2; exit 1; }

# A wrong limit in the program may make it write without end: a case gets so much time, and below files get a limit too.
run() { timeout 30 "$tool" "$@"; }
# an error has status 1, the message that is named and no output
errs() { # NAME MESSAGE ARGUMENT..
    local status=0
    run "${@:3}" >"$out" 2>"$message" || status=$?
    [ "$status" -eq 1 ] || fail "$1: status $status"
    [ ! -s "$out" ] || fail "$1: an error, and yet output"
    [ "$(<"$message")" = "tabletext: $2" ] || fail "$1: '$(<"$message")' instead of 'tabletext: $2'"
}
wrong() { # MESSAGE TEXT
    printf "$2" >"$input"
    errs "'$2'" "$1" table <"$input"
    errors=$((errors + 1))
}
refused() { # MESSAGE TABLE
    printf "$2" >"$input"
    errs "'$2'" "$1" text <"$input"
    errors=$((errors + 1))
}
# the text gives a table whose text is the other
becomes() { # OTHER TEXT
    printf "$2" | run table >"$table" || fail "'$2' is refused, or gives no table of the size due"
    run text <"$table" >"$out" || fail "the table of '$2' is refused"
    printf "$1" | cmp -s - "$out" || fail "'$2' comes back as another text: $(head -c 300 "$out")"
}

examples_come_back() {
    local text
    texts=0
    for text in "$here"/../examples/p*.txt; do
        run table <"$text" >"$table" && run text <"$table" >"$out" || fail "$text is refused"
        grep -v '^#' "$text" | cmp -s - "$out" || fail "$text comes back as another text"
        texts=$((texts + 1))
    done
    [ "$texts" -gt 0 ] || fail "no example"
}

# a stored table whose run is refused is no table, and is refused with the same number
tables_come_back() {
    local stored last status
    whole=0 refusals=0
    for stored in "$here"/vectors/*/*.tab; do
        last=$(tail -n 1 "${stored%.tab}.out") status=0
        if [[ $last == refused* ]]; then
            run text <"$stored" >"$out" 2>"$message" || status=$?
            [ "$status" -eq 1 ] && [ ! -s "$out" ] || fail "$stored: status $status, or output"
            [[ $(<"$message") == "tabletext: record at byte "*": $last: "* ]] || fail "$stored: '$(<"$message")' instead of '$last'"
            refusals=$((refusals + 1))
        else
            run text <"$stored" >"$out" && run table <"$out" >"$table" && cmp -s "$table" "$stored" || fail "$stored comes back as another table"
            whole=$((whole + 1))
        fi
    done
    [ "$whole" -gt 0 ] && [ "$refusals" -gt 0 ] || fail "no stored table"
}

free_texts() {
    local five='nodes 5\nfounding 0-4\n'
    # comments, blank lines, tabs, ends of lines with \r, a missing last line end, and faults that add up
    becomes 'nodes 9\nfounding 0-3\ncycle\nstop 1-2\nmiss vote 5-8 at 0\nmiss vote 4-8 at 3\n' \
        '# begin\n\nnodes\t9 # nine\r\nfounding 0,1-3\n cycle#first\nstop 2\nstop 1\r\nstop 1,2\nmiss vote 8,5-7 at 3,0\nmiss vote 4 at 3'
    becomes "${five}cycle\nstop 0,2-3\n" '\xEF\xBB\xBFnodes 5\r\nfounding 0 - 4\r\ncycle\r\nstop 0 ,2- 3\r\n'
    becomes "${five}cycle\nmiss vote 0,2 at 1,3-4\n" "${five}cycle\nmiss vote 0, 2 at 1 , 3 -4 # late\n"
    becomes "${five}cycle\nstop 0-4\nlose vote 0-4\n" 'nodes 5\nfounding all\ncycle\nstop all\nlose vote all # of them\n'
    becomes 'nodes 64\nfounding 0-63\n' 'nodes 64\nfounding all\n'
    # equal cycles that follow each other become one, whoever wrote them out
    becomes "${five}repeat 3\ncycle\ncycle\nstop 1\ncycle\n" "${five}cycle\ncycle\ncycle\ncycle\nstop 1\ncycle\n"
    becomes "${five}repeat 6\ncycle\nmiss vote 1 at 2\n" "${five}repeat 2\n\n# two\ncycle\nmiss vote 1 at 2\nrepeat 4\ncycle\nmiss vote 1 at 2\n"
    becomes "${five}cycle\nstart 3\nrepeat 1000000\ncycle\n" "${five}repeat 1\ncycle\nstart 3\nrepeat 999999\ncycle\ncycle\n"
}

# bytes written by hand
zero='\0\0\0\0\0\0\0\0' clean="GM\2" first='GM\1\5\0\0\0\0\0\0\0\37'
clean+=$zero$zero$zero$zero
bytes_by_hand() {
    printf 'nodes 5\nfounding all\nrepeat 2\ncycle\nstop 0,3\nmiss vote 4 at 1\n' | run table >"$out"
    local cycle='GM\2\0\0\0\0\0\0\0\11'$zero$zero$zero'\1\201\0\0\0\0\0\0\0\20'
    printf "$first$cycle$cycle" | cmp -s - "$out" || fail "a table of two cycles has other bytes"
    # as many cycles as a table has are written one after the other, until nobody reads
    { printf 'nodes 5\nfounding all\nrepeat 4294967295\ncycle\n' | run table || true; } 2>"$message" | head -c 84 >"$out"
    printf "$first$clean\0$clean\0" | cmp -s - "$out" || fail "the longest table begins with other bytes"
}

plain='; statements have plain characters alone'
wrong_beginnings() {
    wrong "line 1: the text ends before 'nodes'" ''
    wrong "line 1: the text ends before 'nodes'" '\xEF\xBB\xBF'
    wrong "line 3: the text ends before 'founding'" 'nodes 5\n\n'
    wrong "line 1: the text is in UTF-16; save it as UTF-8" '\xFF\xFEn\0o\0'
    wrong "line 1: the text is in UTF-16; save it as UTF-8" '\xFE\xFF\0n\0o'
    wrong "line 1: this is a table and no text; 'tabletext text' reads it" "$first"
    wrong "line 1: expected 'nodes NUMBER', not 'cycle'" 'cycle\n'
    wrong "line 1: expected 'nodes NUMBER', not 'node'" 'node 5\n'
    wrong "line 1: expected 'nodes NUMBER', not 'nodes:'" 'nodes: 5\n'
    wrong "line 1: expected 'nodes NUMBER', not 'nodes=5'" 'nodes=5\n'
    wrong "line 1: expected 'nodes NUMBER', not 'Nodes'; words stand in small letters" 'Nodes 5\n'
    wrong "line 1: expected 'nodes NUMBER', not 'nodes\\xC2\\xA05'$plain" 'nodes\xC2\xA05\n'
    wrong "line 1: expected 'nodes NUMBER', not 'n\\x00o\\x00'$plain" 'n\0o\0\n'
    wrong "line 1: expected 'nodes NUMBER', not '0123456789012345678901234567890123456789..'" '01234567890123456789012345678901234567890\n'
    wrong "line 1: expected the number of nodes, 2 to 64, but the line ends" 'nodes\n'
    wrong "line 1: expected the number of nodes, 2 to 64, but the line ends" 'nodes # 5\n'
    wrong "line 1: expected the end of the line, not '6'" 'nodes 5 6\n'
    local number
    for number in five 5x 1 65 4294967301 18446744073709551618 5.0; do
        wrong "line 1: expected the number of nodes, 2 to 64, not '$number'" "nodes $number\n"
    done
    wrong "line 1: expected the number of nodes, 2 to 64, not '-'" 'nodes -5\n'
    wrong "line 2: expected 'founding LIST', not 'nodes'" 'nodes 5\nnodes 5\n'
    wrong "line 2: expected 'founding LIST', not 'founders'" 'nodes 5\nfounders all\n'
}

wrong_lists() {
    local list="'all', a range such as 0-1 or a node, 0 to 4" more="a range such as 0-1 or a node, 0 to 4" begin='nodes 5\nfounding'
    wrong "line 2: expected $list, but the line ends" "$begin\n"
    wrong "line 2: expected $list, not 'ALL'; words stand in small letters" "$begin ALL\n"
    wrong "line 2: expected $list, not '5'" "$begin 5\n"
    wrong "line 2: expected $list, not '18446744073709551616'" "$begin 18446744073709551616\n"
    wrong "line 2: expected $list, not '0..4'" "$begin 0..4\n"
    wrong "line 2: expected $list, not '0\\xE2\\x80\\x934'$plain" "$begin 0\xE2\x80\x934\n"
    wrong "line 2: expected $list, not '-'" "$begin -2\n"
    wrong "line 2: expected $list, not ','" "$begin ,2\n"
    wrong "line 2: expected $list, not 'node'" "$begin node 2\n"
    wrong "line 2: expected $more, but the line ends" "$begin 1,\n"
    wrong "line 2: expected $more, not 'all'" "$begin 1,all\n"
    wrong "line 2: expected $more, not ','" "$begin 1,,2\n"
    wrong "line 2: expected the last node of the range, 0 to 4, but the line ends" "$begin 0-\n"
    wrong "line 2: expected the last node of the range, 0 to 4, not '5'" "$begin 0-5\n"
    wrong "line 2: expected the last node of the range, 3 to 4, not '11'" "$begin 3-11\n"
    wrong "line 2: the range 3-1 runs backwards; write 1-3" "$begin 3-1\n"
    wrong "line 2: the range 4-0 runs backwards; write 0-4" "$begin 1,4 - 0\n"
    wrong "line 2: expected the last node of the range, 0 to 4, not 'all'" "$begin 0-all\n"
    wrong "line 2: expected ',' or the end of the line, not '2'" "$begin 1 2\n"
    wrong "line 2: expected ',' or the end of the line, not '-'" "$begin 1-2-3\n"
    wrong "line 2: expected ',' or the end of the line, not 'nodes'" "$begin all nodes\n"
    wrong "line 2: 'all' stands alone in a list" "$begin all,2\n"
    wrong "line 2: node 1 stands twice in the list" "$begin 1,1\n"
    wrong "line 2: node 2 stands twice in the list" "$begin 0-3, 2-4\n"
}

wrong_cycles() {
    local begin='nodes 5\nfounding 0-4\n'
    local any="'stop', 'start', 'lose', 'miss', 'cycle' or 'repeat'" times="how many times the cycle stands, 1 to 4294967295"
    wrong "line 3: expected 'cycle' or 'repeat NUMBER', not 'stop'" "${begin}stop 1\n"
    wrong "line 3: expected 'cycle' or 'repeat NUMBER', not 'founding'" "${begin}founding 1\n"
    wrong "line 3: expected 'cycle' or 'repeat NUMBER', not 'cycles'" "${begin}cycles\n"
    wrong "line 3: expected the end of the line (a cycle has no number, and each fault a line of its own), not '2'" "${begin}cycle 2\n"
    wrong "line 4: expected $any, not 'halt'" "${begin}cycle\nhalt 2\n"
    wrong "line 4: expected $any, not 'nodes'" "${begin}cycle\nnodes 5\n"
    wrong "line 4: expected $any, not ','" "${begin}cycle\n, 2\n"
    wrong "line 3: expected $times, but the line ends" "${begin}repeat\ncycle\n"
    wrong "line 3: expected $times, not '0'" "${begin}repeat 0\ncycle\n"
    wrong "line 3: expected $times, not '4294967296'" "${begin}repeat 4294967296\ncycle\n"
    wrong "line 3: expected $times, not 'twice'" "${begin}repeat twice\ncycle\n"
    wrong "line 3: expected the end of the line ('cycle' stands on a line of its own), not 'cycle'" "${begin}repeat 3 cycle\n"
    wrong "line 4: expected 'cycle' after 'repeat', not 'repeat'" "${begin}repeat 3\nrepeat 3\ncycle\n"
    wrong "line 4: expected 'cycle' after 'repeat', not 'stop'" "${begin}repeat 3\nstop 1\n"
    wrong "line 4: expected 'cycle' after 'repeat', but the text ends" "${begin}cycle\nrepeat 3\n\n# end\n"
    wrong "line 5: a table has at most 4294967295 cycles" "${begin}repeat 4294967295\ncycle\ncycle\n"
    wrong "line 5: a table has at most 4294967295 cycles" "${begin}cycle\ncycle\nrepeat 4294967294\ncycle\n"
}

wrong_faults() {
    local begin='nodes 5\nfounding 0-4\ncycle\n' list="'all', a range such as 0-1 or a node, 0 to 4"
    wrong "line 4: expected $list, but the line ends" "${begin}stop\n"
    wrong "line 4: expected $list, not '7'" "${begin}start 7\n"
    wrong "line 4: expected ',' or the end of the line, not 'start'" "${begin}stop 1 start 2\n"
    wrong "line 4: expected 'heartbeat' or 'vote', not '3'" "${begin}lose 3\n"
    wrong "line 4: expected 'heartbeat' or 'vote', not 'votes'" "${begin}lose votes 3\n"
    wrong "line 4: expected 'heartbeat' or 'vote', but the line ends" "${begin}miss\n"
    wrong "line 4: expected $list, but the line ends" "${begin}lose vote\n"
    wrong "line 4: expected ',' or 'at', but the line ends" "${begin}miss vote 1\n"
    wrong "line 4: expected ',' or 'at', not 'to'" "${begin}miss heartbeat 1 to 2\n"
    wrong "line 4: expected $list, but the line ends" "${begin}miss heartbeat 1 at\n"
    wrong "line 4: expected ',' or the end of the line, not '3'" "${begin}miss heartbeat 1 at 2 3 4 5\n"
    wrong "line 4: expected $list, not '7'" "${begin}miss vote 7 at 2\n"
    wrong "line 4: expected $list, not '7'" "${begin}miss vote 2 at 7\n"
    wrong "line 4: node 3 cannot miss its own vote: it stands in both lists" "${begin}miss vote 3 at all\n"
    wrong "line 7: node 2 cannot miss its own heartbeat: it stands in both lists" "${begin}\n# two\ncycle\nmiss heartbeat 0-2 at 2-4\n"
}

refused_records() {
    local start="record at byte 0: refused" ends="the file ends inside the record:" head
    refused "$start 11: the file is empty" ''
    refused "$start 11: $ends 2 bytes are there (6E 6F), 3 are due" 'no'
    refused "$start 11: $ends 4 bytes are there, 12 are due" 'GM\1\0'
    refused "$start 1: the number of nodes is 65, not 2 to 64" "GM\1\101$zero"
    refused "$start 1: the number of nodes is 1, not 2 to 64" 'GM\1\1\0\0\0\0\0\0\0\1'
    refused "$start 13: the founding set is empty" "GM\1\5$zero"
    refused "$start 13: the founding set, at byte 4, names node 5, and the nodes are 0 to 4" 'GM\1\5\0\0\0\0\0\0\0\77'
    refused "record at byte 12: refused 12: cycle 1: the record begins with the bytes 47 4D 01, not with 47 4D 02" "$first$first"
    refused "record at byte 48: refused 11: cycle 2: $ends 1 byte is there (0A), 3 are due" "$first$clean\0\n"
    refused "record at byte 48: refused 11: cycle 2: $ends 2 bytes are there (0D 0A), 3 are due" "$first$clean\0\r\n"
    refused "record at byte 48: refused 11: cycle 2: $ends 35 bytes are there, 36 are due" "$first$clean\0$clean"
    refused "record at byte 12: refused 11: cycle 1: $ends 40 bytes are there, 45 are due by the count 1 at byte 47" "$first$clean\1\0\0\0\0"
    refused "record at byte 12: refused 11: cycle 1: $ends 40 bytes are there, 1197 are due by the count 129 at byte 47, which is above 128" "$first$clean\201\0\0\0\0"
    refused "record at byte 48: refused 13: cycle 2: 'lose heartbeat', at byte 67, names node 63, and the nodes are 0 to 4" \
        "$first$clean\0GM\2$zero$zero\200\0\0\0\0\0\0\0$zero\0"
}

# what looks like a text is told where it belongs, and a table with a byte changed is not
refused_heads() {
    local begin="record at byte 0: refused 12: the record begins with the bytes" due="not with 47 4D 01" text="; 'tabletext table' reads a text"
    refused "$begin 6E 6F 64, $due$text" 'nodes 5\n'
    refused "$begin 23 20 50, $due$text" '# Pr\xC3\xBCfstand 3\r\nnodes 5\n'
    refused "$begin EF BB BF, $due$text" '\xEF\xBB\xBFnodes 5\nfounding all\n'
    refused "record at byte 12: refused 12: cycle 1: the record begins with the bytes 6E 6F 64, not with 47 4D 02" "${first}nodes 5\nfounding all\n"
    refused "$begin 47 4D 02, $due" "GM\2${first#GM?1}"
    refused "$begin 47 4D 21, $due" "GM!${first#GM?1}"
    refused "$begin 67 4D 21, $due" 'gM!@\377\377\377\377\377\377\377\377'
    refused "$begin 00 00 00, $due" '\0\0\0'
}

refused_entries() {
    local to_one='\1\0\0\0\0\0\0\0\1' begin="record at byte 12: refused 13: cycle 1:"
    local only="entry 1, at byte 48, of 1 by the count at byte 47," second="entry 2, at byte 57, of 2 by the count at byte 47,"
    printf -v many '%129s' ''
    refused "$begin the count at byte 47 is 129, and a cycle has at most 128 entries" "$first$clean\201${many// /$to_one}"
    refused "$begin $only begins with the byte 41, whose bit 6 is not 0" "$first$clean\1\101\0\0\0\0\0\0\0\1"
    refused "$begin $only names node 9 as receiver, and the nodes are 0 to 4" "$first$clean\1\11\0\0\0\0\0\0\0\1"
    refused "$begin $second names node 5 as a sender, and the nodes are 0 to 4" "$first$clean\2$to_one\2\0\0\0\0\0\0\0\40"
    refused "$begin $only names no sender that node 1 misses" "$first$clean\1\1$zero"
    refused "$begin $second has node 0 miss its own vote" "$first$clean\2$to_one\200\0\0\0\0\0\0\0\1"
    refused "$begin $second begins with the byte 01, which is not above the 01 of the entry before it" "$first$clean\2$to_one$to_one"
    refused "record at byte 48: refused 13: cycle 2: entry 1, at byte 84, of 1 by the count at byte 83, names node 63 as receiver, and the nodes are 0 to 4" \
        "$first$clean\0$clean\1\77\0\0\0\0\0\0\0\1"
}

arguments() {
    local file="a file is read by: tabletext table <press.txt >press.tab, or tabletext text <press.tab"
    local one="expected one argument, 'table', 'text', '--help' or '--version'; $file"
    errs "no argument" "$one"
    errs "two arguments" "$one" table "$input"
    errs "another argument" "expected 'table', 'text', '--help' or '--version', not 'press.txt'; $file" press.txt
    errs "an argument of other characters" "expected 'table', 'text', '--help' or '--version', not 'a\\x0Ab\\x1B'; $file" $'a\nb\e'
    errs "a folder" "the input could not be read: Is a directory" table <"$here"
    [ "$(run --version)" = "tabletext $version" ] || fail "--version is '$(run --version)'"
    run --help >"$out"
    grep -q '^usage: tabletext table ' "$out" || fail "--help does not begin with the usage"
    local statement
    for statement in nodes founding repeat cycle stop start 'lose heartbeat' 'lose vote' 'miss heartbeat' 'miss vote'; do
        grep -q "^ *$statement " "$out" || fail "--help does not name '$statement'"
    done
}

# a device that is full; the message is the only sign
full() { # ARGUMENT..
    local status=0
    run "$@" >/dev/full 2>"$message" || status=$?
    [ "$status" -eq 1 ] && [ "$(<"$message")" = "tabletext: the output could not be written: No space left on device" ] ||
        fail "$* to a full device: status $status, '$(<"$message")'"
}
full_outputs() {
    full --help
    full --version
    full table <"$here/../examples/p1.txt"
    printf 'nodes 5\nfounding all\nrepeat 4294967295\ncycle\n' >"$input"
    full table <"$input"
    run table <"$here/../examples/p1.txt" >"$input"
    full text <"$input"
}

# where the input would have to be typed there is a hint before the answer, and a terminal is spared the bytes of a table
on_terminal() { # NAME MESSAGE COMMAND
    local status=0
    timeout 30 script -qec "$3 2>'$message'" /dev/null </dev/null >"$out" || status=$?
    [ "$status" -eq 1 ] && [ ! -s "$out" ] || fail "$1: status $status, or output"
    [ "$(<"$message")" = "$2" ] || fail "$1: '$(<"$message")' instead of '$2'"
}
terminals() {
    local typed="is expected on standard input, which is a terminal; see tabletext --help" text=$here/../examples/p1.txt
    on_terminal "a text typed" "tabletext: a text $typed"$'\n'"tabletext: line 1: the text ends before 'nodes'" "'$tool' table >'$table'"
    on_terminal "a table typed" "tabletext: a table $typed"$'\n'"tabletext: record at byte 0: refused 11: the file is empty" "'$tool' text"
    on_terminal "a table for a terminal" "tabletext: a table is bytes and is not written to a terminal; write it to a file: tabletext table <press.txt >press.tab" \
        "'$tool' table <'$text'"
    run table <"$text" >"$table"
    timeout 30 script -qec "'$tool' text <'$table' 2>'$message'" /dev/null </dev/null >"$out" || fail "a text for a terminal: status $?"
    [ ! -s "$message" ] && tr -d '\r' <"$out" | cmp -s - <(grep -v '^#' "$text") || fail "a text for a terminal is another"
}

all_checks() {
    errors=0
    examples_come_back
    tables_come_back
    free_texts
    bytes_by_hand
    wrong_beginnings
    wrong_lists
    wrong_cycles
    wrong_faults
    refused_records
    refused_heads
    refused_entries
    arguments
    full_outputs
    terminals
}

shopt -s nullglob
gcc -std=c99 -g -O1 -fsanitize=address,undefined -fno-sanitize-recover=all -I"$here/../include" "$here/../tools/tabletext.c" -o "$checked"
# in KiB: the longest table of a case has 36 MB
ulimit -f 65536
for tool in "$built" "$checked"; do
    all_checks
done
# sanitizers need much memory themselves
tool=$built
(ulimit -v 30000 && errs "much input in little memory" "out of memory" text < <(head -c 100000000 /dev/zero))
echo "tests/text: $texts texts and $whole tables come back, $refusals stored tables and $errors texts and tables are refused with their place; also under sanitizers"

#!/usr/bin/env bash
# What grouprun does where its input is slow, closed or fails, where its output is closed or full, and with a table of BYTES bytes that is never stored.
# Each case names the exit status, the last line, the whole output and what is said on standard error. Usage: load.sh GROUPRUN PLAIN TABLEGEN BUILD-FOLDER, which holds tabletext and measure
set -euo pipefail
grouprun=$(realpath "$1") plain=$2 tablegen=$3 build=$4 here=$(dirname "$0")
bytes=${BYTES:-134217728} most_kib=4096 limit=20
p1=$build/load.p1 short=$build/load.short long=$build/load.long
given=$build/load.out message=$build/load.message expected=$build/load.expected none=$build/load.none part=$build/load.part
count=0 says=
unread="grouprun: the input could not be read" unwritten="grouprun: the output could not be written"
fail() { echo "tests/load: $*" >&2; exit 1; }

# runs a case, whose standard output is what the program printed; `-` for no last line. `says` is the one line on standard error, if there is to be one
try() { # NAME STATUS LAST-LINE OUTPUT CASE..
    local status=0 last
    "${@:5}" >"$given" 2>"$message" || status=$?
    last=$(tail -n 1 "$given")
    [ "$status" -eq "$2" ] || fail "$1: status $status instead of $2"
    [ "${last:--}" = "$3" ] || fail "$1: the last line is '$last' instead of '$3'"
    cmp -s "$given" "$4" || fail "$1: another output than in $4"
    [ "$(<"$message")" = "$says" ] || fail "$1: '$(<"$message")' on standard error instead of '$says'"
    count=$((count + 1))
}
run() { timeout "$limit" "$grouprun"; }
run_of() { "$plain" <"$1"; }

gcc -std=c99 -Wall -Wextra -Werror -pedantic -O2 "$here/feed.c" -o "$build/feed"
"$build/tabletext" table <"$here/../examples/p1.txt" >"$p1"
# longer than the program's input buffer, and much longer than a pipe and both its buffers
"$tablegen" 64 3000 1 1 >"$short"
"$tablegen" 5 20000 1 1 >"$long"
: >"$none"
run_of "$short" >"$expected.short"
run_of "$long" >"$expected.long"
last_of() { tail -n 1 "$1"; }
p1_out=$here/../examples/p1.out

# ---- input that is slow
in_pieces() { "$build/feed" pieces "$1" "$2" <"$3" | run; }
try "pieces of 1000 bytes with pauses" 0 "$(last_of "$expected.short")" "$expected.short" in_pieces 1000 2 "$short"
try "a record in several pieces" 0 "$(last_of "$p1_out")" "$p1_out" in_pieces 7 20 "$p1"
try "byte by byte, with a pause after each" 0 "$(last_of "$p1_out")" "$p1_out" in_pieces 1 2 "$p1"
try "byte by byte" 0 "$(last_of "$expected.short")" "$expected.short" in_pieces 1 0 "$short"
stopped() {
    local pid
    "$grouprun" < <("$build/feed" pieces 1024 10 <"$short") &
    pid=$!
    sleep 0.1
    kill -STOP "$pid" && sleep 0.2 && kill -CONT "$pid" && wait "$pid"
}
try "stopped and continued" 0 "$(last_of "$expected.short")" "$expected.short" stopped
# the line of a cycle is printed as soon as its record is read, and not only when the input ends
printed_early() { { cat "$p1"; sleep 0.3; wc -c <"$part" >"$part.early"; } | run >"$part" && cat "$part.early" "$part"; }
{ wc -c <"$p1_out"; cat "$p1_out"; } >"$expected.early"
try "every line before the input ends" 0 "$(last_of "$p1_out")" "$expected.early" printed_early
# its buffers stand on the stack
small_stack() { (ulimit -s 256; run <"$short"); }
try "256 KiB of stack" 0 "$(last_of "$expected.short")" "$expected.short" small_stack

# ---- input that is none
run_of "$none" >"$expected.empty"
head -n 1 "$p1_out" >"$expected.header"
closed_input() { run <&-; }
directory() { run <"$here"; }
unreadable() { run </proc/self/mem; }
empty_pipe() { : | run; }
try "empty_pipe" 0 "refused 11" "$expected.empty" empty_pipe
says=$unread
for case in closed_input directory unreadable; do
    try "$case" 0 "$(last_of "$expected.header")" "$expected.header" "$case"
done

# ---- input that fails in the middle: the whole cycles before it are printed, and no refusal
stalled() { head -c "$1" "$p1" | timeout "$limit" "$build/feed" stall "$grouprun"; }
head -n 3 "$p1_out" >"$expected.whole"
try "a read fails after two cycles" 0 "$(last_of "$expected.whole")" "$expected.whole" stalled $((12 + 2 * 36))
try "a read fails inside the third cycle" 0 "$(last_of "$expected.whole")" "$expected.whole" stalled $((12 + 2 * 36 + 5))

# ---- output that cannot be written: a failed write ends the run, and only a signal gives another status than 0
says=$unwritten
closed_output() { run <"$1" >&-; }
full() { run <"$1" >/dev/full; }
for table in "$p1" "$long"; do
    try "closed output, $table" 0 - "$none" closed_output "$table"
    try "full output, $table" 0 - "$none" full "$table"
done
endless() { "$tablegen" 64 4294967295 1 0 | full /dev/stdin; return "${PIPESTATUS[1]}"; }
try "full output, endless input" 0 - "$none" endless
reader_gone() { run <"$long" | head -n 2; return "${PIPESTATUS[0]}"; }
reader_gone_ignored() { (trap '' PIPE; run <"$long") | head -n 2; return "${PIPESTATUS[0]}"; }
head -n 2 "$expected.long" >"$expected.two"
# the program ignores SIGPIPE as it starts, by the kit's code before its own, so that it is told by the failed write
try "the reader is gone" 0 "$(last_of "$expected.two")" "$expected.two" reader_gone
try "the reader is gone, SIGPIPE ignored" 0 "$(last_of "$expected.two")" "$expected.two" reader_gone_ignored
# a file that may have 100 KiB, as on a disk that fills up: the last line is cut. The shell would name the signal on standard error
small_file() { local status=0; { (ulimit -f 100; run <"$long" >"$part") || status=$?; } 2>/dev/null; cat "$part"; return "$status"; }
small_file_ignored() { (ulimit -f 100; trap '' XFSZ; run <"$long" >"$part") && cat "$part"; }
head -c 102400 "$expected.long" >"$expected.100"
try "100 KiB of output, SIGXFSZ ignored" 0 "$(last_of "$expected.100")" "$expected.100" small_file_ignored
says=
try "100 KiB of output" 153 "$(last_of "$expected.100")" "$expected.100" small_file

# ---- a table of BYTES bytes and a byte more, which is refused; the peak memory is bounded
cycles=$(((bytes - 12 + 35) / 36))
stream() { "$tablegen" 64 "$cycles" 1 0; printf G; }
ours=$build/load.ours theirs=$build/load.theirs
rm -f "$ours" "$theirs"
mkfifo "$ours" "$theirs"
(stream | timeout $((limit + bytes / 1000000)) "$build/measure" "$grouprun" 2>"$message" >"$ours") &
first=$!
(stream | "$plain" | tee "$theirs" | tail -n 2 >"$given") &
second=$!
cmp "$ours" "$theirs" || fail "$bytes bytes: another output than plain C"
wait "$first" || fail "$bytes bytes: status $?"
wait "$second" || fail "$bytes bytes: plain C ended with status $?"
printf '%d kept 0 %016x %016x %016x\nrefused 11\n' "$cycles" -1 0 0 | cmp -s - "$given" || fail "$bytes bytes: the last lines are wrong"
read -r seconds kib <"$message"
[ "$kib" -le "$most_kib" ] || fail "$bytes bytes: $kib KiB of memory, more than $most_kib"
rm -f "$build"/load.{p1,short,long,out,message,none,part,part.early,ours,theirs} "$expected".*
echo "tests/load: $count cases as named; $cycles cycles of $((12 + 36 * cycles)) bytes in $seconds processor seconds and $kib KiB, as plain C"

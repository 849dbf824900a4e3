#!/usr/bin/env bash
# The archive on buffers of exactly the lengths that it is told: eight presses in eight threads, beside pages that cannot be touched, in a host built with
# the compiler's sanitizers, and under valgrind. Each watcher is first shown a fault that it must find. Usage: memory.sh ARCHIVE TABLEGEN BUILD-FOLDER
# SEED and CALLS choose the calls, CYCLES how many a press runs; ALL=1 fails where valgrind is missing, which is otherwise said and left out.
set -euo pipefail
archive=$1 tablegen=$2 build=$3 here=$(dirname "$0")
seed=${SEED:-1} calls=${CALLS:-2000} cycles=${CYCLES:-2000} all=${ALL:-0}
message=$build/memory.message
cc=(gcc -std=gnu99 -Wall -Wextra -Werror -pedantic -g -I"$here/../include" "$here/load.c" "$archive" -pthread)
fail() { cat "$message" >&2; echo "tests/memory: $*" >&2; exit 1; }
ulimit -c 0

# the program ends well, and what it says is shown
clean() { # NAME COMMAND..
    "${@:2}" >"$message" 2>&1 || fail "$1: status $?"
    echo "tests/memory: $1: $(tail -n 1 "$message")"
}
# the watcher finds the fault: the status is the one named, and so are words of its report, if it makes one. The shell's own report of a signal is dropped
finds() { # NAME STATUS REPORT COMMAND..
    local status=0
    { "${@:4}" >"$message" 2>&1 || status=$?; } 2>/dev/null
    [ "$status" -eq "$2" ] || fail "$1: not found, status $status instead of $2"
    [ -z "$3" ] || grep -q "$3" "$message" || fail "$1: not reported as '$3'"
}

mkdir -p "$build"
presses=() tables=()
for n in 2 3 5 7 9 12 16 20; do
    presses+=("$build/memory.press.$n") tables+=("$build/memory.table.$n")
    "$tablegen" "$n" "$cycles" "$((seed + n))" 1 >"$build/memory.press.$n"
    "$tablegen" "$n" 5 "$((seed + n))" 1 >"$build/memory.table.$n"
done
# few cycles of 64 units: each is 64 times 63 frames to be read on two channels
tables+=("$build/memory.table.64")
"$tablegen" 64 2 "$seed" 1 >"$build/memory.table.64"

"${cc[@]}" -O2 -o "$build/load"
clean "threads" "$build/load" press heap "${presses[@]}"
for fault in write read host; do
    finds "guard pages, $fault" 139 '' "$build/load" fault pages "$fault"
done
clean "guard pages" "$build/load" calls pages "$seed" "$calls" "${tables[@]}"
clean "guard pages, threads" "$build/load" press pages "${tables[@]}"

# the host's own code is instrumented, the archive is not
"${cc[@]}" -O1 -fsanitize=address,undefined -fno-sanitize-recover=all -o "$build/load-sanitized"
finds "sanitizers, host" 1 'heap-buffer-overflow' "$build/load-sanitized" fault heap host
clean "sanitizers" "$build/load-sanitized" calls heap "$seed" "$calls" "${tables[@]}"
clean "sanitizers, threads" "$build/load-sanitized" press heap "${tables[@]}"

# valgrind runs the archive's code too, some fifty times slower
if command -v valgrind >/dev/null && gcc -E -include valgrind/memcheck.h -x c /dev/null >/dev/null 2>&1; then
    memcheck=(valgrind -q --error-exitcode=99 --partial-loads-ok=no --leak-check=full "$build/load-memcheck")
    "${cc[@]}" -O1 -DMEMCHECK -o "$build/load-memcheck"
    finds "valgrind, write" 99 'Invalid write of size' "${memcheck[@]}" fault heap write
    finds "valgrind, read" 99 'Invalid read of size' "${memcheck[@]}" fault heap read
    finds "valgrind, unset" 99 'uninitialised' "${memcheck[@]}" fault heap unset
    clean "valgrind" "${memcheck[@]}" calls heap "$seed" $((calls / 5)) "${tables[@]}"
    clean "valgrind, threads" "${memcheck[@]}" press heap "${tables[@]}"
    clean "valgrind, races" valgrind -q --tool=helgrind --error-exitcode=99 "$build/load" press heap "${tables[@]}"
elif [ "$all" != 0 ]; then
    : >"$message"
    fail "valgrind or its header memcheck.h is not installed, and all parts were asked for"
else
    echo "tests/memory: SKIPPED valgrind: it or its header memcheck.h is not installed; bytes that nobody wrote, races and leaks were not looked for"
fi
rm -f "$message" "${presses[@]}" "${tables[@]}"

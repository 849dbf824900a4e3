#!/usr/bin/env bash
# Whether the commands tell a new user what is needed: `make help` lists every target, a command that is missing is named in one sentence, tools/kit.sh tells how far
# the kit is and passes on its verdict, .ci/run runs the gate as it is and then the tests, and tools/evidence.sh takes nothing but what was tested, whole and of this
# commit. A script plays the kit; nothing is proved or built.
# Usage: commands.sh
set -euo pipefail
cd "$(dirname "$0")/.."
work=$(mktemp -d)
trap 'rm -rf "$work"' EXIT
unset "${!GIT_@}"
fail() { echo "tests/commands: $*" >&2; exit 1; }
has() { grep -qF -- "$2" "$1" || fail "'$2' is not in: $(<"$1")"; }
# variables of an outer make must not reach the one that is tried
quiet_make() { env -u MAKEFLAGS -u MAKELEVEL PATH="$path" make --silent "$@"; }

# ---- the list of targets, and what is missing

check_help() {
    diff <(sed -nE 's/^([a-z][a-z -]*):.*/\1/p' Makefile | tr ' ' '\n' | sort -u) <(path=$PATH quiet_make help | awk 'NF > 2 { print $2 }' | sort) ||
        fail "the targets of the Makefile (<) are not those of make help (>)"
    diff <(sed -nE 's/^([a-z]+-test):.*/\1/p' Makefile | sort -u) <(sed -nE 's/^[A-Z]+_TESTS = //p' Makefile | tr ' ' '\n' | grep -e '-test$' | sort) ||
        fail "the tests of the Makefile (<) are not those that make test runs (>)"
}

# a path with only what make itself needs, and a C compiler that makes nothing
bare_path() {
    local tool
    mkdir "$work/bare"
    for tool in bash make awk find grep mkdir rm rmdir; do ln -s "$(command -v "$tool")" "$work/bare/$tool"; done
    ln -s "$(type -P true)" "$work/bare/gcc"
    path=$work/bare
}
one_sentence() { # COMMAND-NAME WHAT NEXT-STEP TARGET...
    local target
    for target in "${@:4}"; do
        ! quiet_make "$target" ARCHIVE="$work/libgm.a" GROUPRUN="$work/grouprun" BUILD="$work/c" >"$work/said" 2>&1 || fail "make $target passes without $1"
        [[ $(<"$work/said") =~ ^Makefile:[0-9]+:\ \*\*\*\ this\ needs\ $2:\ there\ is\ no\ command\ $1\ on\ the\ path$3\.\ +Stop\.$ ]] ||
            fail "make $target without $1 says: $(<"$work/said")"
        [ ! -e "$work/c" ] || fail "make $target makes something before it says that there is no $1"
    done
}
check_missing() {
    bare_path
    ! quiet_make -i test >"$work/said" 2>&1 || fail "make test runs where what fails is ignored"
    has "$work/said" 'run it without -i'
    one_sentence rt "the Rattle kit" "; an installed grouprun or libgm.a needs no kit" run archive host test evidence format install stack vectors-test
    quiet_make help >"$work/said" || fail "make help needs the kit"
    quiet_make uninstall PREFIX="$work/prefix" DESTDIR= >"$work/said" || fail "make uninstall needs the kit"
    quiet_make -n trace-test edits >"$work/said" || fail "make trace-test or make edits needs the kit"
    ln -s "$work/kit/rt" "$work/bare/rt"
    one_sentence cargo cargo "" test compare compare-test bench
    rm "$work/bare/gcc"
    one_sentence gcc gcc "" run host stack archive-test series-test heartbeats-test quiet-test install
}

# with programs that print what they are told to: the paper's lines, or others
run_of() { # FILE
    mkdir -p "$work/c"
    printf '#!/bin/sh\nexec cat\n' >"$work/c/tabletext"
    printf '#!/bin/sh\nexec cat "%s"\n' "$1" >"$work/grouprun"
    chmod +x "$work/c/tabletext" "$work/grouprun"
    path=$PATH quiet_make run GROUPRUN="$work/grouprun" BUILD="$work/c" >"$work/out" 2>"$work/err"
}
check_run() {
    run_of examples/p1.out || fail "make run fails on the paper's lines: $(<"$work/err")"
    cmp examples/p1.out "$work/out" || fail "make run prints other lines than the program's"
    has "$work/err" 'examples/p1.txt'
    has "$work/err" "$work/c/tabletext table <my.txt >my.tab && $work/grouprun <my.tab"
    ! run_of examples/p2.out || fail "make run takes other lines than the paper's"
}

# ---- a small repository, and a kit that says what stands in a file

make_kit() {
    mkdir "$work/kit"
    cat >"$work/kit/rt" <<'KIT'
#!/usr/bin/env bash
[ "$1" != version ] || { echo "${KIT:-a kit}"; exit 0; }
echo "$PWD: $*" >"$SAYS.asked"
head -n 1 "$SAYS" >&2
for _ in {1..100}; do [ ! -e "$SAYS.wait" ] || sleep 0.1; done
tail -n +2 "$SAYS"
exit "${ENDS:-0}"
KIT
    chmod +x "$work/kit/rt"
}
make_room() {
    local program
    room=$work/room
    mkdir -p "$room"/{.ci,tools,tests,include,crates/low/must-fail}
    cp .ci/run "$room/.ci"
    cp tools/{kit,rests,archive,evidence}.sh "$room/tools"
    cp tests/edits.sh "$room/tests"
    cp .gitignore "$room"
    printf '.PHONY: tests\ntests:\n\t@$(TESTS)\n' >"$room/Makefile"
    printf '# NAME: the crates it rests on\nlow:\nprint_program: low\ngrouprun: low print_program\nquietrun: print_program\nvectors: low\nrowrun staticlib: low grouprun\n' >"$room/crates.txt"
    printf 'refused by: low::Part::half\nfile: src/lib.rt\nold: 2\nnew: 3\n' >"$room/crates/low/must-fail/third.edit"
    for program in grouprun quietrun; do
        mkdir -p "$room/crates/$program/out"
        echo "$program" >"$room/crates/$program/out/$program"
    done
    printf 'uint32_t gm_%s(uint8_t *state);\n' begin stop >"$room/include/gm.h"
    git -C "$room" init --quiet
    commit "a repository"
}
commit() { git -C "$room" add . && git -C "$room" -c user.name=a -c user.email=a@b commit --quiet --allow-empty -m "$1"; }
says() { printf '%b\n' "$@" >"$work/says"; }
# standard output and standard error go to files, the exit status is in `ended`
run_kit() { # WORDS OF kit.sh
    ended=0
    SAYS=$work/says PATH=$work/kit:$PATH "$room/tools/kit.sh" "$@" >"$work/out" 2>"$work/err" || ended=$?
}
proof='logic=proved functions=1'
libc='axioms libc: libc::' os='axioms os: os::c::'
# of a program over tables
assumed=("${libc}isatty, libc::read, libc::write (3 of the 128 declared)" "${os}rattle_arg, os::c::rattle_errno, os::c::rattle_set_errno (3 of the 22 declared)"
    'axioms std: none reached of the 2 declared' "$proof axioms=6 sum=1")
refusal="rt: must-fail low/third.edit: refused, as it must be: ./proofs/Part/half/Answers.antt:1:1: error: \`returns\`: the two types differ"
# with a byte 0 in a message, as the kit may quote one; a crate that an earlier run proved comes without its proof
gate_lines=('== low' "$proof sum=1" 'rt: low proved' 'rt: low: trying its must-fail edits (1)' "$proof tests=1 axioms=9 sum=1" 'rt: print_program: its tests are proved'
    "$proof sum=1" 'rt: print_program proved' "${assumed[@]}" 'rt: grouprun proved' 'a note on \0' "${assumed[@]}" 'rt: quietrun proved'
    'rt: vectors is kept: an earlier run on this machine proved the same files over the same libraries'
    "${libc}read, libc::write (2 of the 128 declared)" "${os}__xpg_strerror_r, os::c::rattle_errno (2 of the 22 declared)" "$proof axioms=4 sum=1" 'rt: rowrun proved'
    "$refusal" 'rt: rowrun ran, and wrote what its file stdout has'
    'rt: ok; handles allowed: none; must-fail edits: 1 refused; every proof and must-fail edit was done in this run' '7 passed, 0 failed')

# ---- how far the kit is

check_lines() {
    says "${gate_lines[@]}"
    run_kit gate "an hour" . rt ci
    [ "$ended$(<"$work/out")" = 0 ] || fail "a gate that passes ends with $ended and prints: $(<"$work/out")"
    [ "$(<"$work/says.asked")" = "$room: ci" ] || fail "the gate is asked otherwise: $(<"$work/says.asked")"
    diff - <(sed -E 's/[0-9]+ s:/T s:/' "$work/err") <<'LINES' || fail "what is told of a gate (>) is not what is expected (<)"
rt ci: from nothing an hour; what it says goes to log/gate.log
crate 1 of 6, T s: low proved
crate 2 of 6, T s: print_program proved
crate 3 of 6, T s: grouprun proved
crate 4 of 6, T s: quietrun proved
crate 6 of 6, T s: rowrun proved
LINES
    cmp "$work/says" "$room/log/gate.log" || fail "the log is not what the kit said"
    says 'rt: low: begins with what a check kept in a folder' 'library low: modules loaded=5 checked=0' 'crate low: modules loaded=3 checked=2' "$proof sum=1" \
        'crate grouprun: modules loaded=3 checked=2' "$proof sum=1"
    run_kit try "an hour" crates/grouprun rt run
    [ "$(<"$work/says.asked")" = "$room/crates/grouprun: run" ] || fail "the kit is asked otherwise: $(<"$work/says.asked")"
    diff - <(sed -E 's/[0-9]+ s:/T s:/' "$work/err") <<'LINES' || fail "what is told of a program (>) is not what is expected (<)"
rt run: from nothing an hour; what it says goes to log/try.log
crate 1 of 3, T s: low proved
crate 2 of 3, T s: grouprun proved
LINES
}
check_quiet() {
    says 'rt: low is kept: an earlier run proved the same' 'rt: ok; handles allowed: none'
    run_kit try "an hour" . rt ci
    [ "$ended" = 0 ] && [ ! -s "$work/out" ] && [ ! -s "$work/err" ] || fail "what is proved already is told: $(<"$work/out") $(<"$work/err")"
    says 'this is no line on a crate'
    run_kit try "an hour" crates/low rt lib
    [ "$ended" = 0 ] || fail "status 0 of a kit that tells of no crate becomes $ended"
}

# a line is told as it comes, and not at the end
check_life() {
    says "${gate_lines[@]:1}"
    touch "$work/says.wait"
    run_kit gate "an hour" . rt ci &
    sleep 1
    ! grep -q 'crate 1 of 6' "$work/err" 2>/dev/null || fail "the kit did not wait"
    rm "$work/says.wait"
    wait $!
    has "$work/err" 'crate 4 of 6'
}

check_failure() {
    says 'crates/low/src/lib.rt:1:1: error: no such name' \
        'rt: low NOT PROVED' 'rt: grouprun NOT PROVED: its library low failed' 'rt: FAILED: low grouprun' '3 passed, 2 failed'
    ENDS=1 run_kit gate "an hour" . rt ci
    [ "$ended$(<"$work/out")" = 1 ] || fail "a gate that fails ends with $ended and prints: $(<"$work/out")"
    has "$work/err" 'error: no such name'
    has "$work/err" 'rt: FAILED: low grouprun'
    has "$work/err" '3 passed, 2 failed'
    says 'rt: something else'
    ENDS=3 run_kit try "an hour" crates/low rt lib
    [ "$ended" = 3 ] || fail "status 3 becomes $ended"
    has "$work/err" 'rt: something else'
}

# on a terminal one line is rewritten
on_terminal() { # COMMAND
    ended=0
    SAYS=$work/says PATH=$work/kit:$PATH script -qec "$1" /dev/null </dev/null >"$work/shown" || ended=$?
}
check_terminal() {
    local gate="'$room/tools/kit.sh' gate 'an hour' . rt ci"
    says "${gate_lines[@]}"
    on_terminal "$gate"
    has "$work/shown" $'\rcrate 3 of 6, '
    [ "$ended" = 0 ] || fail "on a terminal a gate that passes ends with $ended: $(<"$work/shown")"
    [ "$(wc -l <"$work/shown")" = 2 ] || fail "on a terminal a gate takes other than two lines: $(<"$work/shown")"
    ENDS=1 on_terminal "$gate"
    [ "$ended" = 1 ] || fail "on a terminal a gate that fails ends with $ended: $(<"$work/shown")"
}
# a kit that says nothing yet: the first crate is in work, and the seconds go on
rewritten() { tr '\r' '\n' <"$work/shown" | grep -c '^crate 1 of 6, ' || true; }
check_waiting() {
    says "${gate_lines[@]}"
    touch "$work/says.wait"
    : >"$work/shown"
    on_terminal "'$room/tools/kit.sh' gate 'an hour' . rt ci" &
    for _ in {1..80}; do [ "$(rewritten)" -ge 2 ] || sleep 0.1; done
    [ "$(rewritten)" -ge 2 ] || fail "a kit that says nothing is not told of: $(<"$work/shown")"
    rm "$work/says.wait"
    wait $!
    has "$work/shown" 'crate 6 of 6, '
}

# ---- the gate, and then the tests

ci() { # TESTS
    ended=0
    rm -rf "$room/target"
    SAYS=$work/says PATH=$work/kit:$PATH TESTS=$1 "$room/.ci/run" >"$work/out" 2>"$work/err" || ended=$?
}
check_ci() {
    local tests='cat target/bin/grouprun target/bin/quietrun' bad
    says "${gate_lines[@]}"
    ci "$tests"
    [ "$ended $(<"$work/out")" = $'0 grouprun\nquietrun\n7 passed, 0 failed' ] || fail "a gate with tests that pass ends with $ended and prints: $(<"$work/out")"
    [ "$(<"$work/says.asked")" = "$room: ci" ] || fail "the gate is asked otherwise: $(<"$work/says.asked")"
    ENDS=1 ci "$tests"
    [ "$ended$(<"$work/out")" = 1 ] || fail "a gate that fails ends with $ended and prints: $(<"$work/out")"
    ci 'echo a test; exit 3'
    [ "$ended" != 0 ] && [ "$(<"$work/out")" = 'a test' ] || fail "a gate with a test that fails ends with $ended and prints: $(<"$work/out")"
    for bad in 'refused, 1 bad' '0 refused, 12 bad' 'refused, 3 of them only by a limit, 1 bad'; do
        says "${gate_lines[@]/1 refused/1 $bad}"
        ci "$tests"
        [ "$ended$(<"$work/out")" = 1 ] || fail "a gate with a bad edit ends with $ended and prints: $(<"$work/out")"
        has "$work/err" 'could not be tried'
    done
    says "${gate_lines[@]/#rt: ok*/rt: well}"
    ci "$tests"
    [ "$ended$(<"$work/out")" = 1 ] || fail "a gate that does not say that all is well ends with $ended and prints: $(<"$work/out")"
}

# ---- evidence

evidence() { (cd "$room" && PATH=$work/kit:$PATH tools/evidence.sh "$@" >"$work/out" 2>"$work/err"); }
refused() { # REASON
    ! evidence 0.0.0 target/libgm.a include/gm.h || fail "evidence is written, though: $1"
    [[ $(head -n 1 "$room/evidence.txt") == 'NOT EVIDENCE: '* ]] || fail "the text that is no evidence begins: $(head -n 1 "$room/evidence.txt")"
    has "$room/evidence.txt" "NOT EVIDENCE: $1"
    has "$work/err" "NOT EVIDENCE: $1"
}
compared_lines=('stored: 8 votes and decisions come out' 'compare: seed 7, 9 random calls' 'gm_begin    5 calls; by status 0: 5' 'gm_stop     4 calls; by status 0: 4' 'gm_stop: joining: 4'
    'compare: 9 calls agree' 'press: mistake SenderSkipped is noticed by press 0' 'press: all presses agree, and every mistake is noticed'
    'printed: 3 tables agree' 'demand3: all claims hold, and every mistake is found' 'load: other lines')
# the logs of a run, of a gate that says what is given
tested() { # LINE...
    evidence begin
    says "$@"
    run_kit gate "an hour" . rt ci
    mkdir -p "$room/target"
    echo an archive >"$room/target/libgm.a"
    printf '%s\n' "${compared_lines[@]}" >"$room/log/compared.log"
    evidence passed "host run" target/libgm.a include/gm.h
}
check_evidence() {
    rm -rf "$room/log"
    refused "make test was not run: run make test first"
    tested "${gate_lines[@]}"
    evidence 0.0.0 target/libgm.a include/gm.h || fail "no evidence: $(<"$work/err")"
    grep -E '^[0-9a-f]{64}  ' "$room/evidence.txt" | (cd "$room" && sha256sum -c --status) || fail "the sums are wrong"
    sed -E '1d; s/^(commit: ).*/\1C/; s/^[0-9a-f]{64}/SUM/; s/ \([-0-9: ]+ UTC\)//' "$room/evidence.txt" >"$work/out"
    diff - "$work/out" <<'LINES' || fail "evidence.txt (>) is not what is expected (<)"
kit: a kit
commit: C
tree: as committed
SUM  target/libgm.a
SUM  include/gm.h
tests passed: 2, host run
gate: 7 passed, 0 failed
crates proved: 6 of 6, 5 of them in this run, without an axiom 2
axioms of grouprun: 6, libc::isatty libc::read libc::write os::c::rattle_arg os::c::rattle_errno os::c::rattle_set_errno
axioms of quietrun: 6, libc::isatty libc::read libc::write os::c::rattle_arg os::c::rattle_errno os::c::rattle_set_errno
axioms of rowrun: 4, libc::read libc::write os::c::__xpg_strerror_r os::c::rattle_errno
edits refused: 1 of 1
tests/edits: 1 edits, each refused by what it names; 0 of them checked again, for what refuses them too
stored: 8 votes and decisions come out
compare: seed 7, 9 random calls
gm_begin    5 calls; by status 0: 5
gm_stop     4 calls; by status 0: 4
compare: 9 calls agree
press: all presses agree, and every mistake is noticed
printed: 3 tables agree
demand3: all claims hold, and every mistake is found
LINES
}
# what is here is not what was tested
check_other_state() {
    KIT="another kit" refused "the last make test was of another state: kit: a kit"
    echo another archive >"$room/target/libgm.a"
    refused "target/libgm.a is not the one that was tested"
    rm "$room/target/libgm.a"
    refused "target/libgm.a is not built"
    touch "$room/crates.txt.orig"
    refused "the files here are not those of a commit"
    commit "another"
    refused "the last make test was of another state"
}
# a gate that did not pass, one of fewer crates, and edits that were not refused, or not by what they name
check_gate() {
    local word
    for word in '6 passed, 1 failed' '5 passed, 0 failed'; do
        tested "${gate_lines[@]/7 passed, 0 failed/$word}"
        refused "6 crates and 1 edits were to pass, and the gate says: $word"
    done
    tested "${gate_lines[@]/#rt: must-fail*/rt: what was said of an edit is lost}"
    refused "not every edit was refused"
    tested "${gate_lines[@]/proofs\/Part/proofs\/Whole}"
    refused "not every edit was refused by what it names"
    tested "${gate_lines[@]/as it must be/as it must be (only by a limit of the prover)}"
    refused "not every edit was refused by what it names"
}
# each stands in the line on the proof of every crate
check_trust() {
    local word
    for word in foreign=1 pinned=no cache=trusted incremental=trusted; do
        tested "${gate_lines[@]/sum=1/$word}"
        refused "not every crate is proved with no more trusted"
    done
    tested "${gate_lines[@]/logic=proved/logic=open}"
    refused "not every crate is proved with no more trusted"
}
# an axiom of a crate that may have none, named or only counted; one more, one other and one less of a crate that may have some
other_axioms() { # LINE...
    tested "$@"
    refused "the axioms are not those that docs/SAFETY.md names"
}
check_axioms() {
    other_axioms "${libc}write (1 of the 50 declared)" "${gate_lines[@]}"
    other_axioms "${libc}write (1 of the 50 declared)" "$proof axioms=1 sum=1" "${gate_lines[@]:2}"
    other_axioms "$proof axioms=1 sum=1" "${gate_lines[@]:2}"
    other_axioms "${gate_lines[@]/isatty, /isatty, libc::open, }"
    other_axioms "${gate_lines[@]/isatty, /open, }"
    other_axioms "${gate_lines[@]/isatty, libc::/}"
    other_axioms "${gate_lines[@]/rattle_errno, /rattle_errno, ..., }"
}
# a comparison without one of its parts, or without an entry
check_comparison() {
    local part
    for part in 'stored: ' 'compare: 9' 'press: all' 'printed: ' 'demand3: ' 'gm_stop  '; do
        tested "${gate_lines[@]}"
        sed -i "/^$part/d" "$room/log/compared.log"
        refused "the comparison with other code has no line '${part%% *}"
    done
    printf '%s\n' "${compared_lines[@]/gm_stop     4/gm_stop     0}" >"$room/log/compared.log"
    refused "the comparison with other code has no line 'gm_stop"
    rm "$room/log/compared.log"
    refused "the comparison with other code has no line 'stored: "
}
# a run that ended before its gate
check_begun() {
    tested "${gate_lines[@]}"
    evidence begin
    refused "the last make test did not come to its end: run make test again"
    evidence passed "host run" target/libgm.a include/gm.h
    refused "the last make test did not come to its end: run make test again"
    evidence begin
    says "${gate_lines[@]}"
    run_kit gate "an hour" . rt ci
    refused "the last make test did not come to its end: run make test again"
}

make_kit
make_room
check_help
check_missing
check_run
check_lines
check_quiet
check_life
check_failure
check_terminal
check_waiting
check_ci
check_evidence
check_other_state
check_gate
check_trust
check_axioms
check_comparison
check_begun
echo "commands: help, missing commands, make run, progress, the gate and the tests after it, and evidence as expected"

#!/usr/bin/env bash
# Whether the headers and the archive agree: every entry declared once and exported, each called from C and known to whoever has to know all entries, the
# places and values that the headers name those of the archive, a host of an older header refused by the compiler, nothing undefined but what is named here, no
# writable data, and no deeper stack than the header says. Usage: archive.sh ARCHIVE BUILD-FOLDER
set -euo pipefail
archive=$1 build=$2
mkdir -p "$build"
fail() { echo "archive: $*" >&2; exit 1; }

declared=$(grep -oE '^uint32_t gm_[a-z_]+' include/gm.h | sed 's/uint32_t //' | sort)
exported=$(nm --defined-only "$archive" | awk '$2 == "T" { print $3 }' | sort)
[ -z "$(uniq -d <<<"$declared")" ] || fail "an entry is declared twice"
[ "$declared" = "$exported" ] || fail "declared and exported entries differ: $(diff <(echo "$declared") <(echo "$exported") | tr '\n' ' ')"

# what has to call every entry, or to have each of them in other code, so that a new one is forgotten by none
knows() { # FILE PATTERN
    grep -qE "$2" "$1" || fail "include/gm.h declares $entry, and $1 has nothing like '$2'"
}
for entry in $declared; do
    name=${entry#gm_}
    for file in tests/entries.c tests/load.c; do knows "$file" "\b$entry\("; done
    knows bench/plain/plain.h "\bplain_$name\("
    knows tests/host/src/archive.rs "\b$entry\b"
    knows tests/host/src/archive.rs "\bplain_$name\b"
    knows tests/host/src/paper/entries.rs "fn $name\("
    knows tests/host/src/bin/compare.rs "\.$name\("
done

# a constant that is a number is unsigned, as statuses are; and the version is the Makefile's
signed=$(grep -E '^#define GM_[A-Z0-9_]+ [0-9]' include/gm.h | grep -vE ' (0x)?[0-9A-F]+U( |$)' || true)
[ -z "$signed" ] || fail "a constant is not unsigned: $signed"
constant() { awk -v name="$1" '$2 == name { gsub(/["U]/, "", $3); print $3 }' include/gm.h; }
version=$(sed -n 's/^VERSION = //p' Makefile)
[ "$(constant GM_VERSION)" = "$version" ] || fail "include/gm.h is of version $(constant GM_VERSION), the Makefile of $version"
[ "$(constant GM_VERSION_MAJOR).$(constant GM_VERSION_MINOR).$(constant GM_VERSION_PATCH)" = "$version" ] || fail "the parts of the version in include/gm.h are not $version"

# what the compiler calls by itself
needed=$(nm -u "$archive" | awk '$1 == "U" { print $2 }' | sort -u | tr '\n' ' ')
for symbol in $needed; do
    case $symbol in memset | memcpy) ;; *) fail "undefined symbol $symbol" ;; esac
done
writable=$(objdump -h "$archive" | awk '$2 ~ /^\.(data|bss|tdata|tbss)/ && $3 !~ /^0+$/ { print $2 }')
[ -z "$writable" ] || fail "writable data: $writable"

# of what came after SSE2 it has no instruction but tzcnt, which older processors run as bsf: SSE3 to SSE4.2, popcnt and lzcnt, movbe, bit and carry instructions, AES, SHA, AVX
later='addsub|[hv]|movddup|movs[hl]dup|lddqu|pabs|psign|ph(add|sub|min)|pmadd(ub)|pmulh(rs)|pshufb|palignr|p?blend|pinsr[bdq]|pextr[bdq]|pmov[sz]x|p(min|max)(s[bd]|u[wd])|ptest|round|insertps|extractps
|dpp[sd]|mpsadbw|packusdw|pcmp(eqq|gtq|[ei]str)|pmul(dq|ld)|movntdqa|crc32|popcnt|lzcnt|movbe|andn|bextr|bls[imr]|bzhi|mulx|p(dep|ext)|rorx|(sa|sh)[lr]x|ad[co]x|aes|pclmul|sha(1|256)|cmpxchg16|rd(rand|seed)'
beyond=$(objdump -d --no-show-raw-insn "$archive" | awk -F '\t' 'NF > 1 { split($2, word, " "); print word[1] }' | sort -u | grep -E "^(${later//$'\n'/})" || true)
[ -z "$beyond" ] || fail "instructions that not every x86-64 processor runs: $beyond"

cc=(gcc -std=c99 -Wall -Wextra -Werror -pedantic -O2 -Iinclude)
"${cc[@]}" tests/entries.c "$archive" -o "$build/entries"
called=$("$build/entries")
[ "$called" = "$(wc -l <<<"$declared")" ] || fail "$called entries called"
"${cc[@]}" -Wconversion tests/layout.c "$archive" -o "$build/layout"
statuses=$("$build/layout")
[ "$statuses" = $((1 + $(grep -cE '^#define GM_REFUSED_' include/gm.h))) ] || fail "$statuses statuses have a sentence"
printf '#include "gm_refusal.h"\nint main() { uint8_t s[1] = {0}; return gm_refusal_text(gm_stop(GM_MODE_ALWAYS, s, sizeof s)) == gm_refusal_text(GM_REFUSED_LENGTH) ? 0 : 1; }\n' >"$build/cpp.cc"
g++ -Wall -Wextra -Werror -pedantic -Iinclude "$build/cpp.cc" "$archive" -o "$build/cpp"
"$build/cpp" || fail "the C++ caller got another answer"

# a call as it was before presses could be quiet, and one from before heartbeats carried drive bytes, does not compile, whatever warnings a host has off: the
# archive alone could not tell
old=("gm_stop(frame, GM_STATE_BYTES)"
    "gm_start(frame, GM_STATE_BYTES)"
    "gm_state(lent, GM_STATE_BYTES, result, result, result, result, result, mask, mask)"
    "gm_write_heartbeat(5, 2, 1, 0, 0, 9, GM_CHANNEL_B, lent, 0, frame, GM_HEARTBEAT_BYTES)"
    "gm_write_heartbeat(5, 2, 1, 0, 0, 9, GM_CHANNEL_B, frame, GM_HEARTBEAT_BYTES)"
    "gm_send_heartbeat(lent, GM_STATE_BYTES, 0, 0, 9, GM_CHANNEL_A, lent, 0, frame, GM_HEARTBEAT_BYTES, result)"
    "gm_send_heartbeat(lent, GM_STATE_BYTES, 0, 0, 9, GM_CHANNEL_A, frame, GM_HEARTBEAT_BYTES, result)"
    "gm_read_heartbeat(5, 2, 9, GM_CHANNEL_B, lent, GM_HEARTBEAT_BYTES, frame, GM_DRIVE_BYTES, result, result)"
    "gm_read_heartbeat(5, 2, 9, GM_CHANNEL_B, lent, GM_HEARTBEAT_BYTES, result)"
    "gm_receive_heartbeat(5, 2, 9, lent, 0, lent, GM_HEARTBEAT_BYTES, frame, GM_DRIVE_BYTES, result, result)"
    "gm_receive_heartbeat(5, 2, 9, lent, 0, lent, GM_HEARTBEAT_BYTES, result)"
    "gm_view(lent, GM_STATE_BYTES, 0, 0, mask)"
    "gm_send_vote(lent, GM_STATE_BYTES, 0, 0, 9, GM_CHANNEL_A, frame, GM_VOTE_FRAME_BYTES, result)"
    "gm_decide(frame, GM_STATE_BYTES, 0, 0, lent, GM_VOTES_BYTES, 0)"
    "gm_register_read(lent, GM_REGISTERS_BYTES, 0, result)"
    "gm_register_write(frame, GM_REGISTERS_BYTES, 0, 0)"
    "gm_register_cycle(frame, GM_REGISTERS_BYTES, 0, 0, lent, GM_VOTES_BYTES, 0)"
    "gm_register_write_cycle(frame, GM_REGISTERS_BYTES, 0, 0, 0, 0, lent, GM_VOTES_BYTES, 0)"
    "gm_cycle(5, frame, 120, lent, 36)"
    "gm_run(frame, 120, lent, 12)"
    "gm_run_frames(frame, 120, lent, 12, frame, GM_FRAMES_BYTES)")
for call in "${old[@]}"; do
    printf '#include "gm.h"\nuint32_t call(const uint8_t *lent, uint8_t *frame, uint32_t *result, uint64_t *mask)\n{\n    return %s;\n}\n' "$call" >"$build/old.c"
    ! LC_ALL=C gcc -std=c99 -w -Iinclude -fsyntax-only "$build/old.c" 2>"$build/old.message" || fail "an old host still compiles: $call"
    [[ $(grep 'error: ' "$build/old.message") == *"too few arguments to function '${call%%(*}'"* ]] || fail "an old host is refused otherwise: $(<"$build/old.message")"
done

# a host that makes the calls of a cycle on one node and links with --gc-sections has nothing of the other entries
"${cc[@]}" tests/onecycle.c "$archive" -o "$build/onecycle"
"${cc[@]}" -Os -ffunction-sections -fdata-sections -Wl,--gc-sections tests/onecycle.c "$archive" -o "$build/onecycle.small"
kept=$(nm "$build/onecycle.small" | awk '$2 == "T" && $3 ~ /^gm_/ { print $3 }' | sort)
[ "$kept" = "$(grep -oE '\bgm_[a-z_]+\(' tests/onecycle.c | tr -d '(' | sort -u)" ] || fail "linked for the calls of a cycle it has $kept"
bytes() { size "$1" | awk 'END { print $1 }'; }

tests/stackwalk.sh "$build"
tests/stack.sh "$archive" "$build"
echo "archive: version $version, $called entries in $(bytes "$archive") bytes; $statuses statuses with a sentence; needs ${needed:-nothing}, no writable data"
echo "archive: text of a host with the calls of one cycle: $(bytes "$build/onecycle") bytes by -O2, $(bytes "$build/onecycle.small") by -Os and --gc-sections"

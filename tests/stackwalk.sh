#!/usr/bin/env bash
# Whether the walk of the stack (tests/stackwalk.awk) is right: on functions whose frames the compiler states (-fstack-usage) it comes to the sum of these along
# its chain, and what it cannot know it refuses. Usage: stackwalk.sh BUILD-FOLDER
set -euo pipefail
build=$1/stackwalk
mkdir -p "$build"
fail() { echo "stackwalk: $*" >&2; exit 1; }

walk() { # OBJECT..
    { objdump -r "$@" && echo code: && objdump -drz --no-show-raw-insn "$@"; } | awk -v outside=memset -v red_zone="${red_zone-}" -f tests/stackwalk.awk
}
compile() { # NAME OPTION..: of the C on standard input
    gcc -std=c11 -Wall -Wextra -Werror -Wno-infinite-recursion -O2 -fno-inline -fstack-usage "${@:2}" -c -x c - -o "$build/$1.o"
}
is() { # NAME FUNCTION BYTES: as walked
    local bytes
    bytes=$(awk -v name="$2" '$1 == name { print $2 }' "$build/$1.out")
    [ "$bytes" = "$3" ] || fail "$1: $2 comes to $bytes bytes, not $3"
}

# pushed registers, arrays, arguments on the stack, calls from several depths and in a loop, calls of a function outside
cat >"$build/frames.c" <<'C'
#include <string.h>
int leaf(int a) { return 3 * a; }
int room(int a) { volatile char bytes[100]; bytes[a] = 1; return bytes[0]; }
int clear(int a) { char bytes[5000]; memset(bytes, a, 8 * (unsigned)a); return room(bytes[a]) + 1; }
int many(int a, int b, int c, int d, int e, int f, int g, int h) { return room(a + b) + c * d * e * f * g * h; }
int instead(int a) { return clear(a + 1); }
int either(int a) { return a > 3 ? clear(a) : a < 0 ? instead(a) : many(a, a, a, a, a, a, a, leaf(a)); }
int loops(int a) { int sum = 0; while (a-- > 0) sum += either(a) + leaf(sum) + instead(a); return sum; }
C
compile frames -mno-red-zone -maccumulate-outgoing-args -fno-optimize-sibling-calls <"$build/frames.c"
red_zone=0 walk "$build/frames.o" >"$build/frames.out"
while read -r name bytes chain; do
    sum=0
    for part in $chain; do
        # what the compiler states has the return address in it, which is all that is counted of a function outside
        frame=$(awk -F '[:\t]' -v name="$part" '$4 == name { print $5 }' "$build/frames.su")
        sum=$((sum + ${frame:-8}))
    done
    is frames "$name" "$sum"
done <"$build/frames.out"
[ "$(wc -l <"$build/frames.out")" = 7 ] || fail "frames: not every function was walked"

# a jump in place of a call takes no bytes, and one who uses bytes below the stack pointer is counted with all that it may use
compile jumps -foptimize-sibling-calls <"$build/frames.c"
walk "$build/jumps.o" >"$build/jumps.out"
is jumps instead "$(awk '$1 == "clear" { print $2 }' "$build/jumps.out")"
is jumps room $((8 + 128))
# also through a register that holds an address in the stack
compile based -fno-omit-frame-pointer <<<'int room(int a) { volatile char bytes[100]; bytes[a] = 1; return bytes[0]; }'
objdump -d "$build/based.o" | grep -q 'mov *%rsp,%rbp' || fail "based: no frame is reached through a register"
walk "$build/based.o" >"$build/based.out"
is based room $((8 + 8 + 128))

# a number below 0, which a compiler takes for 128 since it is shorter, to take bytes and to give them back
compile negative <<<'__asm__("f: add $-128,%rsp\n sub $0x80,%rsp\n sub $-128,%rsp\n add $0x80,%rsp\n ret");'
objdump -d "$build/negative.o" | grep -q 'sub *$0xffffffffffffff80,%rsp' || fail "negative: the number is written otherwise"
walk "$build/negative.o" >"$build/negative.out"
is negative f $((8 + 256))

# a jump by a table goes to each of its places, and to none of the next table's; before it other registers may be loaded
jump='lea 9f(%rip),%rdx; movslq (%rdx,%rdi,4),%rax; add %rdx,%rax; jmp *%rax'
loaded=${jump/; jmp/; mov 8(%rsi),%rdx; jmp}
assemble() { gcc -c -x assembler - -o "$build/$1.o"; } # NAME: of the assembler text on standard input
assemble tables <<S
f: $jump
1: push %rax; pop %rax
2: ret
   .section .rodata; 9: .long 1b-9b, 2b-9b; .text
g: $jump
1: ret
   .section .rodata; 9: .long 1b-9b; .text
h: popcnt %rdi,%rdi; $loaded
1: push %rax; pop %rax
2: ret
   .section .rodata; 9: .long 1b-9b, 2b-9b; .text
S
walk "$build/tables.o" >"$build/tables.out"
is tables f $((8 + 8))
is tables g 8
is tables h $((8 + 8))

# a large frame is taken in pieces, each touched before the next
pieces='mov %rsp,%r11; sub $0x6000,%r11; 3: sub $0xc00,%rsp; movq $0,(%rsp); cmp %r11,%rsp; jne 3b'
assemble pieces <<<"f: push %rbx; $pieces; sub \$0x18,%rsp; add \$0x6018,%rsp; pop %rbx; ret"
walk "$build/pieces.o" >"$build/pieces.out"
is pieces f $((8 + 8 + 0x6018))

refused() { # NAME MESSAGE OBJECT..
    if walk "${@:3}" >"$build/$1.out" 2>"$build/$1.err"; then fail "$1: is not refused"; fi
    grep -q "^stackwalk: .*$2" "$build/$1.err" || fail "$1: is refused otherwise: $(cat "$build/$1.err")"
    kinds=$((kinds + 1))
}
refused_c() { # NAME MESSAGE C
    compile "$1" <<<"$3"
    refused "$1" "$2" "$build/$1.o"
}
kinds=0
refused_c recursion 'calls itself' 'int f(int n) { return n < 2 ? n : f(n - 1) * f(n - 2); }'
refused_c circle 'calls itself' 'int g(int); int f(int n) { return n * g(n - 1); } int g(int n) { return n < 2 ? n : n + f(n / 2); }'
refused_c pointer 'where it leads is not known' 'int f(int (*g)(int)) { return g(1) + 1; }'
refused_c jump 'where it leads is not known' 'int f(int (*g)(int)) { return g(1); }'
refused_c alloca 'the stack pointer is not known' 'int g(char *p) { return p[1]; } int f(int n) { char bytes[n]; bytes[1] = 2; return g(bytes) + 1; }'
refused_c aligned 'the stack pointer is not known' 'int g(char *p) { return p[1]; } int f(void) { _Alignas(64) char b[64]; b[1] = 2; return g(b) + 1; }'
refused_c outside 'leads to no function here' 'int g(int); int f(int n) { return g(n) + 1; }'
refused_c left 'with 8 bytes on the stack' '__asm__("f: push %rax\n ret");'
refused_c ways 'bytes on the stack one way' '__asm__("f: test %rdi,%rdi\n je 1f\n push %rax\n 1: ret");'
refused_c end 'a way leads out of it' '__asm__("f: ret\n .globl g\n g: nop");'
refused_c unreached 'no way leads here' '__asm__("f: ret\n mov %rax,%rbx\n ret");'
refused_c lea 'the stack pointer is not known' '__asm__("f: lea -0x40(%rsp),%rsp\n lea 0x40(%rsp),%rsp\n ret");'
refused_c given 'more was given back than taken' '__asm__("f: pop %rax\n push %rax\n ret");'
refused_s() { # NAME MESSAGE: of the assembler text on standard input
    assemble "$1"
    refused "$1" "$2" "$build/$1.o"
}
refused_s entered 'where it leads is not known' <<S
f: je 2f; lea 9f(%rip),%rdx; movslq (%rdx,%rdi,4),%rax
2: add %rdx,%rax; jmp *%rax
1: ret
   .section .rodata; 9: .long 1b-9b; .text
S
refused_s within 'where it leads is not known' <<S
f: je 2f; lea 9f(%rip),%rdx; movslq (%rdx,%rdi,4),%rax; add %rdx,%rax
2: mov 8(%rsi),%rdx; jmp *%rax
1: ret
   .section .rodata; 9: .long 1b-9b; .text
S
for register in %rax %eax %ax; do
    refused_s "overwritten$register" 'where it leads is not known' <<S
f: ${loaded/,%rdx; jmp/,$register; jmp}
1: ret
   .section .rodata; 9: .long 1b-9b; .text
S
done
refused_s tableless 'where it leads is not known' <<S
f: $jump
   .section .rodata; 9: .long 5; .text
S
refused_s elsewhere 'leads out of the function' <<S
f: $jump
   .section .rodata; 9: .long 8f-9b; .section .text.other,"ax"
g: nop
8: ret
S
refused_s pieces_entered 'how much it takes is not known' <<<"f: je 3f; $pieces; add \$0x6000,%rsp; ret"
refused_s no_whole_pieces 'the stack pointer is not known' <<<"f: ${pieces/0x6000/0x6100}; add \$0x6100,%rsp; ret"
refused_s other_end 'the stack pointer is not known' <<<"f: ${pieces//r11/r10}; add \$0x6000,%rsp; ret"
refused_c unknown 'this is not understood' '__asm__("f: .byte 6\n ret");'
refused twice 'two functions are named f' "$build/negative.o" "$build/negative.o"
echo "stackwalk: frames as the compiler states them, $kinds kinds of code refused"

#!/bin/sh
# What libjoyce.a asks of its target, as README.md and include/joyce.h say: x86-64 with SSE2, `memset`, no other function, no variable;
# on i386 and x32 the header does not compile. The library is that in the folder JOYCE_LIB.
set -eu
here=$(cd "$(dirname "$0")" && pwd)
lib=${JOYCE_LIB:-$here/../../target/staticlib}/libjoyce.a
out=$(mktemp -d)
trap 'rm -rf "$out"' EXIT

fail() {
    echo "libjoyce.a: $*" >&2
    exit 1
}

# Linked whole, with no C library, into a program that runs.
link() {
    ${CC:-cc} -std=c11 -O1 -Wall -Wextra -Werror -ffreestanding -fno-builtin -fno-stack-protector -nostdlib -static "$@" \
        -I "$here/../../include" "$here/freestanding.c" -Wl,--whole-archive "$lib" -Wl,--no-whole-archive -o "$out/free"
}
link || fail "does not link into a program without a C library"
"$out/free" || fail "the program without a C library ended with status $?"
# The same without a memset must not link, or the above shows nothing.
if link -Dmemset=another_memset 2> "$out/said"; then fail "links without a memset, which README.md says it asks for"; fi
grep -q 'undefined reference to .memset' "$out/said" || { cat "$out/said" >&2 && fail "does not link for another reason"; }

asked=$(nm -u "$lib" | sed -n 's/^ *U //p' | sort -u)
[ "$asked" = memset ] || fail "asks for: $asked"
format=$(objdump -f "$lib" | sed -n 's/.*file format //p' | sort -u)
[ "$format" = elf64-x86-64 ] || fail "is $format"
# Variables would stand in sections that can be written to.
objdump -h "$lib" > "$out/sections"
if awk '$2 ~ /^\.(data|bss|tdata|tbss)/ && $3 !~ /^0+$/ { bad = 1 } END { exit !bad }' "$out/sections"; then fail "has variables"; fi
objdump -d --no-show-raw-insn "$lib" > "$out/code"
grep -q '%xmm' "$out/code" || fail "uses no SSE2, which README.md says it does"
if grep -qE '%(ymm|zmm|st\(|mm[0-7])|%k[1-7]' "$out/code"; then fail "uses registers that x86-64 need not have"; fi
for other in -m32 -mx32; do
    if ${CC:-cc} "$other" -std=c11 -ffreestanding -fsyntax-only -x c "$here/../../include/joyce.h" 2> "$out/said"; then fail "the header takes $other"; fi
    grep -q 'sizeof(size_t) == 8' "$out/said" || { cat "$out/said" >&2 && fail "the header refuses $other for another reason"; }
done
echo "libjoyce.a: elf64-x86-64, asks for memset alone, has no variables; linked and run without a C library"

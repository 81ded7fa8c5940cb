#!/bin/sh
# Assembles the two Z80 programs and builds the host: build.sh [OUTDIR]. The library is taken from the folder JOYCE_LIB.
set -eu
here=$(cd "$(dirname "$0")" && pwd)
out=${1:-$here/../../target/z80}
lib=${JOYCE_LIB:-$here/../../target/staticlib}/libjoyce.a
mkdir -p "$out"
for name in boot page; do
    pasmo -I "$here" "$here/$name.asm" "$out/$name.bin"
    od -An -v -tx1 "$out/$name.bin" | sed 's/ \(..\)/0x\1,/g' > "$out/$name.inc"
done
${CC:-cc} -std=c11 -O2 -Wall -Wextra -Wpedantic -Wconversion -Werror -I "$here/../../include" -I "$out" \
    "$here/main.c" "$here/host.c" "$here/device.c" -o "$out/z80" "$lib" -lz80ex

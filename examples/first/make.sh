#!/usr/bin/env bash
# Makes hi.ll of hi.c: clang for a big-endian device of 32 bits, and then only the line forms of docs/LANGUAGE.md.
set -eu
cd "$(dirname "$0")"
CLANG=${CLANG:-clang}
{
  echo 'target datalayout = "E-p:32:32-i64:64"'
  echo 'declare i32 @putchar(i32)'
  "$CLANG" --target=mips-unknown-linux-gnu -O1 -fno-discard-value-names -S -emit-llvm -o - hi.c |
    sed -n '/^define/,/^}/p' |
    sed -e 's/^define .*@main().*/define i32 @main() {/' -e '/^entry:/d' -e 's/tail //; s/ nsw//; s/ nuw//; s/ noundef//g; s/ signext//g' \
        -e 's/) #[0-9]*$/)/' -e 's/, !.*$//'
} > hi.ll

#!/usr/bin/env bash
# Makes big.ll and little.ll of word.c: clang (16 or later) for a device of 32 bits with either byte order, and then only the line forms of docs/LANGUAGE.md.
set -eu
cd "$(dirname "$0")"
CLANG=${CLANG:-clang-16}
for order in big:mips little:mipsel; do
  "$CLANG" --target="${order#*:}-unknown-linux-gnu" -O0 -fno-discard-value-names -S -emit-llvm -o - word.c |
    sed -n -e '/^target datalayout/p' -e '/^@/p' -e '/^define/,/^}/p' -e '/^declare/p' |
    sed -e 's/^define .*@main().*/define i32 @main() {/' -e '/^entry:/d' -e 's/^declare .*@putchar(.*/declare i32 @putchar(i32)/' \
        -e 's/dso_local //; s/ inbounds//; s/ noundef//g; s/ signext//g; s/, align [0-9]*//; s/ #[0-9]*$//' -e 's/%\([0-9]\)/%t\1/g' |
    awk '/^declare/ { d = $0 } /^declare/ { next } { lines[++n] = $0 } END { for (i = 1; i <= n; i++) { if (lines[i] ~ /^define/) print d; print lines[i] } }' > "${order%:*}.ll"
done

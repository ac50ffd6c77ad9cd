#!/usr/bin/env bash
# How long the program takes to read and run a text of 1 MiB and one of 16 MiB, each one long chain of sums.
# Outside the gate. The figures stand in docs/MEASUREMENTS.md.
set -eu
cd "$(dirname "$0")/.."
./nativeoff local examples/first/hi.ll --steps 1 >/dev/null 2>&1 || true
folder=$(mktemp -d)
trap 'rm -rf "$folder"' EXIT
for size in 1048576 16777216; do
  file=$folder/$size.ll
  awk -v size="$size" 'BEGIN {
    text = "target datalayout = \"E-p:32:32-i64:64\"\ndefine i32 @main() {\n  %a0 = add i32 1, 1\n"
    printf "%s", text; used = length(text)
    for (i = 1; used < size - 60; i++) { line = "  %a" i " = add i32 %a" (i - 1) ", 1\n"; printf "%s", line; used += length(line) }
    printf "  ret i32 %%a%d\n}\n", i - 1
  }' > "$file"
  echo "$(wc -c < "$file") bytes:"
  ( time ./nativeoff local "$file" ) 2>&1 | grep -E 'nativeoff|real' || true
done

#!/usr/bin/env bash
# How long a heap alone takes for 1,500,000 frees, each followed by a request, with 50, 5,000 and 50,000 live blocks. Outside the
# gate; the figures stand in docs/MEASUREMENTS.md. The program of heap/ is built in a repository of its own with the crates below it.
set -eu
cd "$(dirname "$0")/.."
command -v rt >/dev/null || { echo "heap: skipped, since rt is missing"; exit 0; }
folder=$(mktemp -d)
trap 'rm -rf "$folder"' EXIT
TIMEFORMAT=%U
mkdir -p "$folder/crates/heap_bench/src"
for crate in no_ir no_heap; do
  cp -r "crates/$crate" "$folder/crates/"
  grep "^$crate:" crates.txt >>"$folder/crates.txt"
done
echo 'heap_bench: no_ir no_heap' >>"$folder/crates.txt"
cp bench/heap/program.txt "$folder/crates/heap_bench/src/main.rt"
(cd "$folder/crates/heap_bench" && rt run -- 50 0 >/dev/null 2>&1)
for live in 50 5000 50000; do
  for _round in 1 2 3; do
    spent=$({ time "$folder/crates/heap_bench/out/heap_bench" "$live" 1500000 >/dev/null; } 2>&1)
    echo "$live live blocks: $spent s"
  done
done

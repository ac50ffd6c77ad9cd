#!/usr/bin/env bash
# How fast frames are read, beside a copy of the same bytes in C. Outside the gate; the figures stand in docs/MEASUREMENTS.md. The
# program of wire/ is built in a repository of its own with the crates below it.
#
# Goals: 64 MiB of pages in pieces of 65,536 bytes within 3 times of the copy, one byte at a time at most 20 times that.
#
# `bench/wire.sh fuzz SECONDS` lets afl-fuzz look for a stream that reads differently in pieces and in one piece.
set -eu
cd "$(dirname "$0")/.."
for tool in rt clang python3; do
  command -v $tool >/dev/null || { echo "wire: skipped, since $tool is missing"; exit 0; }
done
folder=$(mktemp -d)
trap 'rm -rf "$folder"' EXIT
mkdir -p "$folder/crates/wire_bench/src"
for crate in no_ir no_wire; do
  cp -r "crates/$crate" "$folder/crates/"
done
grep -E '^no_(ir|wire):' crates.txt >"$folder/crates.txt"
echo 'wire_bench: no_ir no_wire' >>"$folder/crates.txt"
cp bench/wire/program.txt "$folder/crates/wire_bench/src/main.rt"
clang -O1 -o "$folder/copy" bench/wire/copy.c
(cd "$folder/crates/wire_bench" && rt run -- make 0 >/dev/null 2>&1)
program=$folder/crates/wire_bench/out/wire_bench
if [ "${1-}" = fuzz ]; then
  command -v afl-fuzz >/dev/null || { echo "wire: skipped, since afl-fuzz is missing"; exit 0; }
  mkdir "$folder/seeds"
  printf '\2\1\7\0\0\0\11\21\0\0\0\1\0\0\0\20\0\0\0\5\7\0\0\0\0' >"$folder/seeds/want"
  printf '\1\3\0\0\0\46\25\0\0\0\2\1\0\0\0\0\0\0\0\377\0\0\0\0\0\0\1\2\0\0\0\3\0\0\0\4\0\0\0\0\0\0\0\5' >"$folder/seeds/finish"
  # The program is built without instrumentation, so this is a search without guidance.
  cat >"$folder/judge" <<JUDGE
#!/bin/sh
[ "\$($program compare)" = true ] || kill -ABRT \$\$
JUDGE
  chmod +x "$folder/judge"
  AFL_SKIP_CPUFREQ=1 AFL_I_DONT_CARE_ABOUT_MISSING_CRASHES=1 AFL_NO_UI=1 timeout "${2:-600}" afl-fuzz -n -i "$folder/seeds" -o "$folder/found" -- "$folder/judge" >/dev/null 2>&1 || true
  grep -E 'execs_done|saved_crashes|saved_hangs' "$folder/found/default/fuzzer_stats"
  exit 0
fi
python3 - "$program" "$folder/copy" <<'PYTHON'
import os, subprocess, sys

FRAMES = "16384"  # 64 MiB of pages


def seconds(*words):
    """The least processor time of five runs."""
    def once():
        child = subprocess.Popen(words, stdout=subprocess.DEVNULL)
        used = os.wait4(child.pid, 0)[2]
        return used.ru_utime + used.ru_stime
    return min(once() for _ in range(5))


made = seconds(sys.argv[1], "make", FRAMES)
copied = seconds(sys.argv[2], "copy") - seconds(sys.argv[2], "make")
pieces = seconds(sys.argv[1], "pieces", FRAMES) - made
single = seconds(sys.argv[1], "bytes", FRAMES) - made
print(f"copied in C          {copied * 1e3:8.1f} ms")
print(f"pieces of 65,536     {pieces * 1e3:8.1f} ms, {pieces / copied:.1f} times the copy")
print(f"one byte at a time   {single * 1e3:8.1f} ms, {single / pieces:.1f} times the pieces")
PYTHON

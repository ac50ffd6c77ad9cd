#!/usr/bin/env bash
# How long the call graph takes, and how much memory. Outside the gate; the figures stand in docs/MEASUREMENTS.md. The program of
# calls/ is built in a repository of its own with the crates below it.
#
# Goals: with 65,536 functions, twice as many take at most 2.5 times as long and as much memory, whatever they call.
set -eu
cd "$(dirname "$0")/.."
for tool in rt python3; do
  command -v $tool >/dev/null || { echo "calls: skipped, since $tool is missing"; exit 0; }
done
folder=$(mktemp -d)
trap 'rm -rf "$folder"' EXIT
mkdir -p "$folder/crates/calls_bench/src"
crates="no_ir no_module no_layout no_room no_eval no_heap no_verify_types no_semantics no_taken no_calls"
for crate in $crates; do
  cp -r "crates/$crate" "$folder/crates/"
  grep "^$crate:" crates.txt >>"$folder/crates.txt"
done
echo 'calls_bench: no_ir no_calls' >>"$folder/crates.txt"
cp bench/calls/program.txt "$folder/crates/calls_bench/src/main.rt"
(cd "$folder/crates/calls_bench" && rt run -- chain make 0 >/dev/null 2>&1)
python3 - "$folder/crates/calls_bench/out/calls_bench" <<'PYTHON'
import os, subprocess, sys


def used(*words):
    """The least processor time of three runs, and the memory, with what was written."""
    best = None
    for _ in range(3):
        child = subprocess.Popen((sys.argv[1],) + words, stdout=subprocess.PIPE)
        told = child.stdout.read().decode().strip()
        usage = os.wait4(child.pid, 0)[2]
        best = min(best or (1e9,), (usage.ru_utime + usage.ru_stime, usage.ru_maxrss / 1024, told))
    return best


for form in ("pointers", "types", "chain"):
    for count in ("65536", "131072"):
        made = used(form, "make", count)
        for step in ("graph", "reaches", "path"):
            whole = used(form, step, count)
            print(f"{form:9} {count:>6} {step:8} {(whole[0] - made[0]) * 1e3:7.0f} ms {whole[1] - made[1]:6.0f} MiB   {whole[2]}")
PYTHON

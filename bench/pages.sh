#!/usr/bin/env bash
# How long an access to a table of pages takes, beside a loop in C over one flat array. Outside the gate; the figures stand in
# docs/MEASUREMENTS.md. The program of pages/ is built in a repository of its own with the crates below it.
#
# Goals: an access inside a page at most 4 ns, one across two pages at most 10 times that, is_zero within 4 times of the loop
# in C over words of 64 bits, a table at most 4 MiB.
set -eu
cd "$(dirname "$0")/.."
for tool in rt clang python3; do
  command -v $tool >/dev/null || { echo "pages: skipped, since $tool is missing"; exit 0; }
done
folder=$(mktemp -d)
trap 'rm -rf "$folder"' EXIT
mkdir -p "$folder/crates/pages_bench/src"
for crate in no_ir no_layout no_pages; do
  cp -r "crates/$crate" "$folder/crates/"
done
grep -E '^no_(ir|layout|pages):' crates.txt >"$folder/crates.txt"
echo 'pages_bench: no_ir no_layout no_pages' >>"$folder/crates.txt"
cp bench/pages/program.txt "$folder/crates/pages_bench/src/main.rt"
clang -O1 -o "$folder/loop" bench/pages/loop.c
(cd "$folder/crates/pages_bench" && rt run -- make 0 >/dev/null 2>&1)
python3 - "$folder/crates/pages_bench/out/pages_bench" "$folder/loop" <<'PYTHON'
import os, subprocess, sys

WORK = [("load-page", 10 ** 8), ("load-pages", 10 ** 8), ("load-little", 10 ** 8), ("load-across", 10 ** 7),
        ("store-page", 10 ** 8), ("store-pages", 10 ** 8), ("store-little", 10 ** 8), ("store-across", 10 ** 7),
        ("zero", 2 * 10 ** 6), ("copy", 10 ** 6)]


def seconds(*words):
    """The least processor time of five runs."""
    def once():
        child = subprocess.Popen(words, stdout=subprocess.DEVNULL)
        used = os.wait4(child.pid, 0)[2]
        return used.ru_utime + used.ru_stime
    return min(once() for _ in range(5))


for what, turns in WORK:
    said = []
    for program in sys.argv[1:]:
        said.append((seconds(program, what, str(turns)) - seconds(program, what, "0")) / turns * 1e9)
    print(f"{what:13} {said[0]:8.2f} ns, in C {said[1]:8.2f} ns")
print(f"a table       {(seconds(sys.argv[1], 'make', '0') - seconds(sys.argv[1])) * 1e3:8.2f} ms")
PYTHON

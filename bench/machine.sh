#!/usr/bin/env bash
# How long the program and LLVM's interpreter take for the same modules of about 20 million counted instructions each, side by
# side in one run. Outside the gate. The programs are bench/machine/*.c, made by examples/from-c for x86-64 at -O1.
#
# Goals: at least 15 times as fast as the interpreter on each program of plain instructions and 20 times in their geometric mean,
# at least as fast on copies and blocks; blocks with 50,000 live ones at most 40 times as dear as with 50.
# The program is $NATIVEOFF, or the one that was built here; LLI is the interpreter's command. Words: names of programs (without
# any: all). ROUNDS says how often each is run; the least time counts.
set -u
cd "$(dirname "$0")/.." || exit 1
program=${NATIVEOFF:-crates/nativeoff/out/nativeoff}
lli=${LLI:-$(command -v lli-19 || command -v lli-16)}
[ -x "$program" ] || { echo "machine: skipped, since $program is not built"; exit 0; }
[ -n "$lli" ] || { echo "machine: skipped, since lli is missing"; exit 0; }
command -v clang-19 >/dev/null || command -v clang-16 >/dev/null || { echo "machine: skipped, since clang is missing"; exit 0; }
folder=$(mktemp -d)
trap 'rm -rf "$folder"' EXIT
TIMEFORMAT=%U

# least COMMAND..: the least processor time in seconds, or what went wrong
least() {
  local best="" spent status round
  for round in $(seq "${ROUNDS:-3}"); do
    spent=$({ time "$@" >"$folder/output" 2>"$folder/said" </dev/null; echo $? >"$folder/status"; } 2>&1)
    status=$(cat "$folder/status")
    if [ "$status" != 0 ]; then tail -n 1 "$folder/said" | cut -c 1-60; return 1; fi
    best=$(awk -v a="${best:-1e9}" -v b="$spent" 'BEGIN { print (a < b ? a : b) }')
  done
  echo "$best"
}

# compared NAME FILE WORDS..: one line of the table
compared() {
  local name=$1 file=$2 ours theirs
  shift 2
  if ! LEVELS=-O1 FLAGS="$*" examples/from-c --program "$program" "$file" x86-64 "$folder/$name.ll" 2>"$folder/said"; then
    printf '%-14s not made: %s\n' "$name" "$(head -n 1 "$folder/said")"
    return
  fi
  if ! ours=$(least "$program" local "$folder/$name.ll" --steps 4294967296); then
    printf '%-14s not run: %s\n' "$name" "$ours"
    return
  fi
  cp "$folder/output" "$folder/wanted"
  if ! theirs=$(least "$lli" -force-interpreter "$folder/$name.ll"); then
    printf '%-14s %8s s, and the interpreter: %s\n' "$name" "$ours" "$theirs"
    return
  fi
  cmp -s "$folder/output" "$folder/wanted" || echo "$name: the outputs differ"
  awk -v name="$name" -v a="$ours" -v b="$theirs" 'BEGIN { printf "%-14s %8.2f s, interpreter %8.2f s, %6.1f times as fast\n", name, a, b, (a > 0 ? b / a : 0) }'
}

for name in ${*:-arithmetic sieve memory calls sorting switching copies blocks-50 blocks-50000}; do
  case $name in
    blocks-*) compared "$name" bench/machine/blocks.c "-DLIVE=${name#blocks-}" ;;
    *) compared "$name" "bench/machine/$name.c" ;;
  esac
done

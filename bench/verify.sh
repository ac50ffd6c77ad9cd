#!/usr/bin/env bash
# How long the program takes to read and judge modules of many blocks, registers, edges and names, and modules that are made
# to be slow to judge. Outside the gate. The figures stand in docs/MEASUREMENTS.md.
#
# Goal: each in no more steps than instructions, and blocks times registers over 64. The ladders are made to miss it: there sets
# shrink one register at a time in front of a long chain, so its blocks are looked at 64 times for each 64 registers.
# The program is $NATIVEOFF, or the one that was built here.
# Words: the names of modules, to judge only these (without any: all). KEEP=FOLDER keeps the texts.
set -eu
cd "$(dirname "$0")/.."
command -v python3 >/dev/null || { echo "verify: skipped, since python3 is missing"; exit 0; }
export NATIVEOFF=${NATIVEOFF:-crates/nativeoff/out/nativeoff}
[ -x "$NATIVEOFF" ] || { echo "verify: skipped, since $NATIVEOFF is not built"; exit 0; }
folder=${KEEP:-$(mktemp -d)}
mkdir -p "$folder"
[ -n "${KEEP-}" ] || trap 'rm -rf "$folder"' EXIT
case " $* " in
  "  " | *" module-16 "*) KEEP=$folder bash bench/profile.sh module-16 >/dev/null ;;
esac
python3 - "$folder" "$@" <<'PYTHON'
import os, sys

sys.dont_write_bytecode = True
sys.path.insert(0, "bench")
from measuring import measured, written

FOLDER, ASKED = sys.argv[1], sys.argv[2:]
SECONDS = int(os.environ.get("SECONDS_AT_MOST", "300"))
LAYOUT = 'target datalayout = "e"\n'
MAIN = "define i32 @main() { a: br label %b b: ret i32 0 }\n"


def main(body):
    return LAYOUT + "define i32 @main() {\n" + body + "}\n"


def link(k, last):
    """A block that adds 1 to the register of the block before."""
    return f"b{k}: %r{k} = add i32 %r{k - 1}, 1 " + (f"br label %b{k + 1}\n" if k < last else f"ret i32 %r{k}\n")


def chain(count, backwards=False):
    links = [link(k, count) for k in range(1, count + 1)]
    return main("b0: %r0 = add i32 1, 1 br label %b1\n" + "".join(reversed(links) if backwards else links))


def nested(depth):
    """Loops inside one another: a block that begins each, with a phi, and one that ends it."""
    begin = [f"h{k}: %i{k} = phi i32 [ 0, %{f'h{k - 1}' if k else 'e'} ], [ %n{k}, %l{k} ] br label %{f'h{k + 1}' if k + 1 < depth else f'l{k}'}\n" for k in range(depth)]
    end = [f"l{k}: %n{k} = add i32 %i{k}, 1 %c{k} = icmp ult i32 %n{k}, 9 br i1 %c{k}, label %h{k}, label %{f'l{k - 1}' if k else 'd'}\n" for k in reversed(range(depth))]
    return main("e: br label %h0\n" + "".join(begin + end) + "d: ret i32 0\n")


def registers(count):
    """Registers of one block that are used in the next."""
    return main("a: %r0 = add i32 1, 1\n" + "".join(f"%r{k} = add i32 %r{k - 1}, 1\n" for k in range(1, count)) + "br label %b\nb:\n" + "".join(f"%s{k} = add i32 %r{k}, 1\n" for k in range(count)) + "ret i32 0\n")


def ladder(steps, length):
    """From each step of a ladder, which assigns a register each, one may go to a chain whose end needs one of each 64. The ways
    from the highest steps come first in the text, so the chain learns of one register less at a time. Some paths miss registers."""
    rungs = "".join(f"x{k}: %r{k} = add i32 1, 1 br i1 true, label %d{k}, label %{f'x{k + 1}' if k + 1 < steps else f'd{k}'}\n" for k in range(steps))
    ways = [f"d{k}: br label %c0\n" for k in reversed(range(steps))]
    blocks = "".join(f"c{k}: br label %c{k + 1}\n" for k in range(length))
    needs = f"c{length}:\n" + "".join(f"%s{k} = add i32 %r{k}, 1\n" for k in range(0, steps, 64)) + "ret i32 0\n"
    return main("e: br label %x0\n" + rungs + ways[0] + blocks + needs + "".join(ways[1:]))


def switch(count):
    blocks = "".join(f"b{k}: br label %d\n" for k in range(count))
    return main("a: switch i32 0, label %d [" + "".join(f" i32 {k}, label %b{k}" for k in range(count)) + " ]\n" + blocks + "d: ret i32 0\n")


def phis(count):
    return main("a: br i1 true, label %b, label %c\nb: br label %c\nc:\n" + "".join(f"%x{k} = phi i32 [ {k}, %a ], [ 0, %b ]\n" for k in range(count)) + "ret i32 0\n")


def predecessors(count, number):
    """A block with so many predecessors and so many phis."""
    cases = "".join(f" i32 {k}, label %b{k}" for k in range(count))
    blocks = "".join(f"b{k}: %r{k} = add i32 1, 1 br label %d\n" for k in range(count))
    pairs = "".join(f", [ %r{k}, %b{k} ]" for k in range(count))
    return main(f"a: switch i32 0, label %d [{cases} ]\n{blocks}d:\n" + "".join(f"%x{k} = phi i32 [ 0, %a ]{pairs}\n" for k in range(number)) + "ret i32 0\n")


MODULES = {
    "module-16": None,
    "chain": lambda: chain(60000),
    "chain-backwards": lambda: chain(60000, True),
    "nested-loops": lambda: nested(10000),
    "registers": lambda: registers(100000),
    "ladder": lambda: ladder(3200, 20000),
    "ladder-longer": lambda: ladder(3200, 40000),
    "ladder-higher": lambda: ladder(6400, 20000),
    "switch": lambda: switch(100000),
    "phis": lambda: phis(60000),
    "predecessors": lambda: predecessors(10000, 50),
    "pairs": lambda: main("a: br label %b\nb: %x = phi i32 [ 7, %a ]" + ", [ 7, %a ]" * 1000000 + " ret i32 %x\n"),
    "functions": lambda: LAYOUT + "".join(f"define void @f{k}() {{ ret void }}\n" for k in range(60000)) + MAIN,
    "calls": lambda: LAYOUT + "".join(f"define void @f{k}() {{ call void @f{k + 1}() ret void }}\n" for k in range(60000)) + "define void @f60000() { ret void }\n" + MAIN,
    "arguments": lambda: LAYOUT + "define void @f(" + ", ".join(["i32"] * 200000) + ") { ret void }\n" + MAIN.replace("a: ", "a: call void @f(" + ", ".join(["i32 1"] * 200000) + ") "),
    "chain-of-types": lambda: LAYOUT + "".join(f"%t{k} = type {{ %t{k - 1} }}\n" for k in range(100000, 0, -1)) + "%t0 = type { i8 }\n" + MAIN.replace("a: ", "a: %p = alloca %t100000 "),
    "doubling-types": lambda: LAYOUT + "%t0 = type { i8 }\n" + "".join(f"%t{k} = type {{ %t{k - 1}, %t{k - 1} }}\n" for k in range(1, 100001)) + MAIN,
    "wide-type": lambda: LAYOUT + "%t = type { i8" + ", i8" * 1000000 + " }\n" + MAIN.replace("a: ", "a: " + "".join(f"%p{k} = getelementptr %t, ptr null, i32 0, i32 {k}\n" for k in range(100000))),
    "globals": lambda: LAYOUT + "".join(f"@g{k} = global ptr @g{k + 1}\n" for k in range(200000)) + "@g200000 = global ptr null\n" + MAIN,
    "list": lambda: LAYOUT + "@g = constant [1000000 x ptr] [ptr @g" + ", ptr @g" * 999999 + "]\n" + MAIN,
    "deep-list": lambda: LAYOUT + "@g = constant " + "[1 x " * 60 + "ptr" + "]" * 60 + " " + "".join("[" + "[1 x " * k + "ptr" + "]" * k + " " for k in reversed(range(60))) + "@g" + "]" * 60 + "\n" + MAIN,
}


print(f"{'module':24}{'bytes':>10}{'cpu':>9}{'MiB':>8}  answer")
for name, make in MODULES.items():
    if ASKED and name not in ASKED:
        continue
    file = f"{FOLDER}/{name}.ll"
    if make is not None:
        written(file, make)
    _, cpu, room, said, _, _ = measured([os.environ["NATIVEOFF"], "local", file, "--steps", "0"], FOLDER, SECONDS)
    print(f"{name:24}{os.path.getsize(file):>10}{cpu:>9.2f}{room:>8.0f}  {said.removeprefix('nativeoff: ')}", flush=True)
    if "KEEP" not in os.environ:
        os.remove(file)
PYTHON

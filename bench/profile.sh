#!/usr/bin/env bash
# How long the program takes to read modules of 1 MiB and 16 MiB, made of what a compiler writes, and texts that are made to
# be slow to read. Outside the gate. The figures stand in docs/MEASUREMENTS.md.
#
# Goals: 16 MiB in at most 20 times the time of 1 MiB, and in at most 60 times the memory of the text.
# The program is $NATIVEOFF, or the one that was built here; llvm-as reads the two modules too, where it is there.
# Words: the names of texts, to read only these (without any: all). KEEP=FOLDER keeps the texts.
set -eu
cd "$(dirname "$0")/.."
command -v python3 >/dev/null || { echo "profile: skipped, since python3 is missing"; exit 0; }
export NATIVEOFF=${NATIVEOFF:-crates/nativeoff/out/nativeoff}
[ -x "$NATIVEOFF" ] || { echo "profile: skipped, since $NATIVEOFF is not built"; exit 0; }
folder=${KEEP:-$(mktemp -d)}
mkdir -p "$folder"
[ -n "${KEEP-}" ] || trap 'rm -rf "$folder"' EXIT
python3 - "$folder" "$@" <<'PYTHON'
import glob, os, re, shutil, sys

sys.dont_write_bytecode = True
sys.path.insert(0, "bench")
from measuring import measured, written

FOLDER, ASKED = sys.argv[1], sys.argv[2:]
LIMIT, SECONDS = 16777216, 300
LAYOUT = 'target datalayout = "E-m:m-p:32:32-i8:8:32-i16:16:32-i64:64-n32-S64"\n'
MAIN = "define i32 @main() {\n  ret i32 0\n}\n"


def units():
    """The compiler's texts for one device: what stands once in a module, and what is repeated under new names."""
    once, parts, declared = [], [], set()
    for number, file in enumerate(sorted(glob.glob("examples/ll/*.mips.ll")), 1):
        text = open(file).read()
        own = set(re.findall(r"^@([-\w$.]+) = ", text, re.M)) | set(re.findall(r"^define [^@\n]*@([-\w$.]+)\(", text, re.M))
        text = re.sub(r'(?<=%)struct\.', f"struct.{number}.", text)
        text = re.sub(r'(?<=%)union\.', f"union.{number}.", text)
        text = re.sub(r"#(\d+)\b", lambda it: f"#{100 * number + int(it[1])}", text)
        text = re.sub(r"!(\d+)\b", lambda it: f"!{1000 * number + int(it[1])}", text)
        text = re.sub(r"@([-\w$.]+)", lambda it: f"@{it[1]}\0" if it[1] in own else it[0], text)
        repeated, inside = [], False
        for line in text.split("\n"):
            inside = inside or line.startswith("define ")
            if inside or line.startswith("@"):
                repeated.append(line)
                inside = inside and line != "}"
            elif line.startswith("declare "):
                name = re.search(r"@([-\w$.]+)", line)[1]
                once.append(line) if name not in declared else None
                declared.add(name)
            elif line.startswith(("%", "attributes ")) or re.match(r"!\d", line):
                once.append(line)
        parts.append((number, "\n".join(repeated) + "\n"))
    return "\n".join(once) + "\n", parts


def module(size):
    """A module of nearly so many bytes."""
    once, parts = units()
    made, used, turn = [LAYOUT, once, MAIN], len(LAYOUT) + len(once) + len(MAIN), 0
    while True:
        for number, text in parts:
            text = text.replace("\0", f".{number}.{turn}")
            if used + len(text) > size:
                return "".join(made)
            made.append(text)
            used += len(text)
        turn += 1


def names(count):
    """So many different short names."""
    letters, row = "abcdefghijklmnopqrstuvwxyzABCDEFGHIJKLMNOPQRSTUVWXYZ0123456789$._-", [""]
    while count > 0:
        row = [it + one for it in row for one in letters][:count]
        yield from row
        count -= len(row)


def within(body, head=LAYOUT, tail="", unit=None):
    """The head, then the unit (or the body) as often as there is room below the limit, then the tail."""
    room = LIMIT - len(head) - len(tail) - len(body)
    return head + body + (unit * (room // len(unit)) if unit else "") + tail


TEXTS = {
    "module-1": lambda: module(1 << 20),
    "module-16": lambda: module(LIMIT),
    "one-line": lambda: re.sub(r"\n *", " ", re.sub(r" *; preds = .*", "", module(LIMIT))),
    "too-long": lambda: LAYOUT + " " * (LIMIT + 1 - len(LAYOUT)),
    "blanks": lambda: within("", tail=MAIN, unit="\n"),
    "one-comment": lambda: within("; ", tail="\n" + MAIN, unit="x"),
    "one-name": lambda: within("@", tail=" = global i8 0\n" + MAIN, unit="x"),
    "one-string": lambda: within('source_filename = "', tail='"\n' + MAIN, unit="x"),
    "c-string": lambda: within("@x = constant [8388608 x i8] c\"", tail='"\n' + MAIN, unit="x")[:LIMIT],
    "braces": lambda: within("", head="", unit="{"),
    "braces-of-types": lambda: within("@x = global ", unit="{"),
    "braces-of-metadata": lambda: within("!0 = !", unit="{"),
    "brackets": lambda: within("", head="", unit="("),
    "brackets-of-attributes": lambda: within("declare void @f() x", unit="("),
    "brackets-of-arguments": lambda: within("define void @f() { call void ", unit="("),
    "pairs-of-metadata": lambda: within("!0 = !{", tail="}\n" + MAIN, unit="{}"),
    "deep-address": lambda: within("@x = global ptr ", unit="getelementptr (i8, ptr "),
    "long-address": lambda: within("@x = global ptr getelementptr (i8, ptr @x", tail=")\n" + MAIN, unit=", i8 0"),
    "long-index": lambda: within("define void @f() { %p = getelementptr i8, ptr null", tail=" ret void }\n" + MAIN, unit=", i8 0"),
    "chain-of-types": lambda: LAYOUT + "".join(f"%t{k} = type {{ %t{k - 1} }}\n" for k in range(100000, 0, -1)) + "%t0 = type { i8 }\n" + MAIN,
    "chain-in-order": lambda: LAYOUT + "%t0 = type { i8 }\n" + "".join(f"%t{k} = type {{ %t{k - 1} }}\n" for k in range(1, 100001)) + MAIN,
    "circle-of-types": lambda: LAYOUT + "".join(f"%t{k} = type {{ %t{(k + 1) % 100000} }}\n" for k in range(100000)) + MAIN,
    "doubling-types": lambda: LAYOUT + "".join(f"%t{k} = type {{ %t{k - 1}, %t{k - 1} }}\n" for k in range(100000, 0, -1)) + "%t0 = type { i8 }\n" + MAIN,
    "one-type-used-often": lambda: LAYOUT + "%t = type { i8 }\n%u = type { %t" + ", %t" * 1000000 + " }\n" + MAIN,
    "labels": lambda: LAYOUT + "define void @f() {\n" + "".join(f"{it}:\n" for it in (f"a{k}" for k in range(1000000))) + "ret void }\n" + MAIN,
    "branches": lambda: LAYOUT + "define void @f() {\nbr label %a0\n" + "".join(f"a{k}: br label %a{k + 1}\n" for k in range(450000)) + "a450000: ret void }\n" + MAIN,
    "globals": lambda: LAYOUT[:0] + 'target datalayout="E-p:32:32"' + "".join(f"@{it}=global i1 0" for it in names(1000000)) + MAIN[:0],
    "functions": lambda: LAYOUT + "".join(f"declare void @f{k}()\n" for k in range(650000)) + MAIN,
    "groups": lambda: LAYOUT + 'attributes #0 = {' + ' "machine-bound"' * 300000 + " }\n" + "".join(f"declare void @f{k}() #0\n" for k in range(300000)) + MAIN,
    "many-groups": lambda: LAYOUT + "".join(f'attributes #{k} = {{ "machine-bound" }}\ndeclare void @f{k}() #{299999 - k}\n' for k in range(200000)) + MAIN,
    "cases": lambda: LAYOUT + "define void @f(i32 %x) {\nswitch i32 %x, label %a [" + "".join(f"i32 {k},label %a " for k in range(750000)) + "]\na: ret void }\n" + MAIN,
    "incoming": lambda: LAYOUT + "define void @f() {\na: br label %b\nb: %x = phi i8 [ 0, %a ]" + ", [ 0, %b ]" * 1300000 + "\nbr label %b }\n" + MAIN,
    "arguments": lambda: LAYOUT + "define void @f() { call void @g(i8 0" + ",i8 0" * 2700000 + ") ret void }\n" + MAIN,
    "instructions": lambda: LAYOUT + "define void @f() {\n" + "".join(f"%{k}=add i1 0,0\n" for k in range(1, 800000)) + "ret void }\n" + MAIN,
    "unnamed-results": lambda: LAYOUT + "define void @f() {\n" + "add i1 0,0\n" * 1500000 + "ret void }\n" + MAIN,
    "metadata": lambda: LAYOUT + "".join(f"!{k} = !{{}}\n" for k in range(1000000)) + MAIN,
}


assembler = next((it for it in ("llvm-as-19", "llvm-as-16", "llvm-as") if shutil.which(it)), None)
found = {}
print(f"{'text':24}{'bytes':>10}{'seconds':>9}{'cpu':>8}{'MiB':>8}{'times':>7}  answer")
for name, make in TEXTS.items():
    if ASKED and name not in ASKED:
        continue
    file = f"{FOLDER}/{name}.ll"
    written(file, make)
    size = os.path.getsize(file)
    wall, cpu, room, said, _, _ = measured([os.environ["NATIVEOFF"], "local", file, "--steps", "0"], FOLDER, SECONDS)
    found[name] = (size, cpu, room)
    print(f"{name:24}{size:>10}{wall:>9.2f}{cpu:>8.2f}{room:>8.0f}{room * 1048576 / size:>7.1f}  {said.removeprefix('nativeoff: ')}", flush=True)
    if assembler and name.startswith("module-"):
        wall, cpu, room, _, first, status = measured([assembler, "-o", "/dev/null", file], FOLDER, SECONDS)
        print(f"  {assembler:22}{'':>10}{wall:>9.2f}{cpu:>8.2f}{room:>8.0f}{room * 1048576 / size:>7.1f}  {'reads' if status == 0 else first[:80]}", flush=True)
    if "KEEP" not in os.environ:
        os.remove(file)
if "module-1" in found and "module-16" in found:
    (_, small, _), (size, large, room) = found["module-1"], found["module-16"]
    print(f"16 MiB take {large / small:.1f} times the processor time of 1 MiB (goal: at most 20), and {room * 1048576 / size:.1f} times the text's memory (goal: at most 60)")
PYTHON

"""Intrinsics, and other forms that the profile leaves out, become plain ones and calls of lib/runtime."""
import re

import aggregates
from text import ATTACHED, LABEL, NAME, Call, functions, named, on_circle, operand

WIDE = ("i8", "i16", "i32", "i64")
# Whose result and arguments are all of the type that the name ends with; how many arguments are handed on.
SAME = {"fshl": 3, "fshr": 3, "ctlz": 1, "cttz": 1, "ctpop": 1, "bitreverse": 1, "abs": 1, "sadd.sat": 2, "uadd.sat": 2, "ssub.sat": 2, "usub.sat": 2, "sshl.sat": 2, "ushl.sat": 2}
PAIRS = re.compile(r"llvm\.([su])(add|sub|mul)\.with\.overflow\.(i\d+)$")
DROPPED = ("llvm.experimental.noalias.scope.decl", "llvm.dbg.", "llvm.donothing", "llvm.sideeffect", "llvm.prefetch", "llvm.invariant.", "llvm.pseudoprobe", "llvm.var.annotation", "llvm.fake.use")
# An alloca whose count is a register.
ROOM = re.compile(rf"\s+(%{NAME}) = alloca ([^,]+), (i\d+) (%{NAME})(?:, align \d+)?")
BITS = {"umin": "and", "smax": "and", "umax": "or", "smin": "or"}


class Lowering:
    """One module. `size` is the type of size_t; `used` are the functions that the lowered lines call."""

    def __init__(self, lines, size):
        self.lines, self.size, self.used, self.count = lines, size, set(), 0

    def done(self):
        out, last = [], 0
        for head, end in functions(self.lines):
            out += self.lines[last:head]
            out += self.function(self.lines[head:end])
            last = end
        out += self.lines[last:]
        out = [plain_global(line) for line in out]
        said = "\n".join(out)
        return out + [f"declare {it}" for it in sorted(self.used) if not re.search(rf"^(declare|define) .*@{re.escape(it.split('@')[1].split('(')[0])}\(", said, re.M)]

    def function(self, body):
        self.pairs = {}
        for line in body:
            if ".with.overflow." in line and (call := Call(line)).name and (it := PAIRS.match(call.name)) and it[3] in WIDE:
                self.pairs[call.result] = (it[1], it[2], it[3], [value for _, value in call.values()])
        text = "\n".join(body)
        for it in list(self.pairs):
            uses = len(re.findall(rf"{re.escape(it)}(?![-\w$.])", text)) - 1
            if uses != len(re.findall(rf"extractvalue \{{ i\d+, i1 \}} {re.escape(it)},", text)):
                del self.pairs[it]
        circle = on_circle(body) if "llvm.stackrestore" in text else set()
        self.is_by_blocks = any("@llvm.stackrestore" in body[at] for at in circle)
        lines = [made for line in body for made in self.line(line)]
        return self.with_blocks(lines) if self.is_by_blocks else lines

    def with_blocks(self, body):
        """The function with its room of variable size in blocks of the heap, which are freed where it ends."""
        out = []
        for line in body:
            it = ROOM.match(line)
            if it:
                bytes, attached = [self.fresh("bytes"), self.fresh("bytes")], ATTACHED.search(line)[1]
                out.append(f"  {bytes[0]} = getelementptr {it[2]}, ptr null, {it[3]} {it[4]}{attached}")
                out.append(f"  {bytes[1]} = ptrtoint ptr {bytes[0]} to {self.size}{attached}")
                line = f"  {it[1]} = call ptr @__lower_room_take({self.size} {bytes[1]}){attached}"
            elif line.startswith("  ret "):
                out.append("  call void @__lower_room_back(ptr %room.start)" + "".join(re.findall(r", !dbg !\d+$", line)))
            out.append(line)
        self.used |= {f"ptr @__lower_room_take({self.size})", "ptr @__lower_room_mark()", "void @__lower_room_back(ptr)"}
        at = 2 if LABEL.match(out[1]) else 1
        return out[:at] + ["  %room.start = call ptr @__lower_room_mark()" + self.place(body)] + out[at:]

    def place(self, body):
        """A place in the source for what is new: some line's of the function."""
        return next((it[0] for it in (re.search(r", !dbg !\d+$", line) for line in body[1:]) if it), "")

    def line(self, line):
        if "extractvalue" in line:
            return self.extracted(line)
        if " asm " in line:
            return self.assembly(line)
        if "call " not in line or "@" not in line:
            return [line]
        call = Call(line)
        if not call.name:
            return [line]
        if call.name.startswith("llvm."):
            made = self.intrinsic(call, line)
        else:
            made = self.copying(call)
        if made is None:
            return [line]
        return [call.indent + it + call.attached for it in made]

    def extracted(self, line):
        it = re.match(r"(\s+)(%\S+) = extractvalue \{ i\d+, i1 \} (%[-\w$.]+), ([01])", line)
        if not it or it[3] not in self.pairs:
            return [line]
        sign, operator, kind, (a, b) = self.pairs[it[3]]
        attached = ATTACHED.search(line)[1]
        if it[4] == "0":
            return [f"{it[1]}{it[2]} = {operator} {kind} {a}, {b}{attached}"]
        return [f"{it[1]}{it[2]} = {self.called(f'{sign}{operator}_overflow', kind, [a, b], 'i1')}{attached}"]

    def called(self, name, kind, values, gives=None):
        gives = gives or kind
        self.used.add(f"{gives} @__lower_{name}_{kind}(" + ", ".join([kind] * len(values)) + ")")
        return f"call {gives} @__lower_{name}_{kind}(" + ", ".join(f"{kind} {it}" for it in values) + ")"

    def assembly(self, line):
        """Assembly without an instruction does nothing, or gives its operand."""
        it = re.match(r'(\s+)(?:(%\S+) = )?(?:tail )?call (\w+) asm (?:sideeffect )?(?:alignstack )?"", "([^"]*)"\((.*)\)[^()]*$', line)
        if not it:
            return [line]
        attached = ATTACHED.search(line)[1]
        if not it[2]:
            return []
        inputs = re.sub(r",?~\{[^}]*\}", "", it[4])
        found = re.fullmatch(r"=&?[rgq](m)?,0", inputs)
        if not found:
            return [line]
        kind, value = operand(it[5])
        return [f"{it[1]}{it[2]} = freeze {kind} {value}{attached}"] if kind == it[3] else [line]

    def copying(self, call):
        """Calls of memcpy, memmove and memset by name are instructions of the machine."""
        if call.name not in ("memcpy", "memmove", "memset") or not call.kind.endswith("ptr"):
            return None
        values = call.values()
        if len(values) != 3 or values[2][0] != self.size:
            return None
        to, value, count = (it for _, it in values)
        made = []
        if call.name == "memset":
            if re.fullmatch(r"-?\d+", value):
                byte = str((int(value) + 128) % 256 - 128)
            else:
                byte = self.fresh("byte")
                made.append(f"{byte} = trunc i32 {value} to i8")
            made.append(f"call void @llvm.memset.p0.{self.size}(ptr {to}, i8 {byte}, {self.size} {count}, i1 false)")
            self.used.add(f"void @llvm.memset.p0.{self.size}(ptr, i8, {self.size}, i1)")
        else:
            name = f"llvm.{call.name}.p0.p0.{self.size}"
            made.append(f"call void @{name}(ptr {to}, ptr {value}, {self.size} {count}, i1 false)")
            self.used.add(f"void @{name}(ptr, ptr, {self.size}, i1)")
        return made + ([f"{call.result} = getelementptr i8, ptr {to}, i32 0"] if call.result else [])

    def fresh(self, word):
        self.count += 1
        return f"%{word}.lowered.{self.count}"

    def intrinsic(self, call, line):
        """The lines in place of a call of an intrinsic, or None where it stays."""
        name = call.name
        if name.startswith(DROPPED) or name == "llvm.assume":
            return [] if not call.result else None
        if PAIRS.match(name):
            return [] if call.result in self.pairs else None
        values = [] if "metadata" in "".join(call.arguments) else call.values()
        word, _, kind = name[5:].rpartition(".")
        if word in SAME and kind in WIDE:
            return [f"{call.result} = {self.called(word.replace('.', '_'), kind, [v for _, v in values[: SAME[word]]])}"]
        if word in BITS and kind == "i1":
            return [f"{call.result} = {BITS[word]} i1 {values[0][1]}, {values[1][1]}"]
        if word == "bswap" and kind == "i8":
            return [f"{call.result} = freeze {kind} {values[0][1]}"]
        return self.other(call, values)

    def other(self, call, values):
        name = call.name
        if name in ("llvm.trap", "llvm.debugtrap", "llvm.ubsantrap"):
            self.used.add("void @abort()")
            return ["call void @abort()"]
        if re.match(r"llvm\.(expect|expect\.with\.probability|launder\.invariant\.group|strip\.invariant\.group|ssa\.copy|annotation|ptr\.annotation|threadlocal\.address)\.", name):
            return [f"{call.result} = freeze {values[0][0]} {values[0][1]}"]
        if name.startswith("llvm.objectsize."):
            kind = name.split(".")[2]
            return [f"{call.result} = add {kind} {'0' if values[1][1] == 'true' else '-1'}, 0"]
        if name.startswith("llvm.is.constant."):
            return [f"{call.result} = freeze i1 false"]
        if name.startswith("llvm.ptrmask."):
            kind, mask = values[1]
            number, kept = self.fresh("number"), self.fresh("kept")
            return [f"{number} = ptrtoint ptr {values[0][1]} to {kind}", f"{kept} = and {kind} {number}, {mask}", f"{call.result} = inttoptr {kind} {kept} to ptr"]
        if name.startswith("llvm.stacksave"):
            return [f"{call.result} = " + ("call ptr @__lower_room_mark()" if self.is_by_blocks else f"inttoptr {self.size} 0 to ptr")]
        if name.startswith("llvm.stackrestore"):
            return [f"call void @__lower_room_back(ptr {values[0][1]})"] if self.is_by_blocks else []
        it = re.match(r"llvm\.(memcpy|memset)\.inline\.(.*)$", name)
        if it:
            whole = f"llvm.{it[1]}.{it[2]}"
            self.used.add(f"void @{whole}(" + ", ".join(kind for kind, _ in values) + ")")
            return [f"call void @{whole}(" + ", ".join(f"{kind} {value}" for kind, value in values) + ")"]
        it = re.match(r"llvm\.([us]cmp)\.(i\d+)\.(i\d+)$", name)
        if it and it[3] in WIDE and it[2] in ("i8", "i32"):
            wide = f"__lower_{it[1]}_{it[3]}"
            self.used.add(f"i32 @{wide}({it[3]}, {it[3]})")
            made = self.fresh("order")
            return [f"{made} = call i32 @{wide}({it[3]} {values[0][1]}, {it[3]} {values[1][1]})", f"{call.result} = " + (f"add i32 {made}, 0" if it[2] == "i32" else f"trunc i32 {made} to i8")]
        return None


def plain_global(line):
    """There are no threads: an object of each thread is one object."""
    return re.sub(r"thread_local(\(\w+\))? ", "", line) if line.startswith("@") and "thread_local" in line else line


BLOCKS = {"malloc": "ptr @__sized_malloc(iS)", "calloc": "ptr @__sized_calloc(iS, iS)", "free": "void @__sized_free(ptr)"}


def is_sized(lines):
    return any(re.match(r"define .*@realloc\(", line) for line in lines)


def sized(lines, size):
    """Where realloc is used, all blocks are those that know their size."""
    out, inside = [], None
    for line in lines:
        if line.startswith("define "):
            inside = re.search(r"@([-\w$.]+)\(", line)[1]
        if inside not in ("__sized_malloc", "__sized_calloc", "__sized_free") and not line.startswith("declare "):
            line = re.sub(r"@(malloc|calloc|free)(?![-\w$.])", r"@__sized_\1", line)
        if line == "}":
            inside = None
        out.append(line)
    said = "\n".join(out)
    return out + [f"declare {it.replace('iS', size)}" for name, it in BLOCKS.items() if not re.search(rf"^(declare|define) .*@__sized_{name}\(", said, re.M)]


def has_exits(lines):
    return any(re.match(r"define .*@atexit\(", line) for line in lines)


def ended(lines):
    """Where atexit is used, main and exit call what was registered."""
    out, inside = [], None
    for line in lines:
        if line.startswith("define "):
            inside = re.search(rf"@({NAME})\(", line)[1]
        if inside != "__exit" and not line.startswith("declare "):
            line = re.sub(r"@exit(?![-\w$.])", "@__exit", line)
        if inside == "main" and line.startswith("  ret "):
            out.append("  call void @__run_exits()" + "".join(re.findall(r", !dbg !\d+$", line)))
        out.append(line)
    said = "\n".join(out)
    needed = ("void @__run_exits()", "void @__exit(i32)")
    return out + [f"declare {it}" for it in needed if not re.search(rf"^(declare|define) .*{re.escape(it.split(' ')[1].split('(')[0])}\(", said, re.M)]


def lowered(lines, size):
    return Lowering(aggregates.scalar(named(lines), size), size).done()

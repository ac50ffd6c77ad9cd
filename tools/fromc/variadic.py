"""Functions with a variable number of arguments: each takes a pointer to a block in place of `...`, and each call lays its arguments
into a block as the target's stack has them, which is where the loads that clang makes of va_arg look for them."""
import re

import formats
from text import ATTACHED, LABEL, NAME, closing, functions, operand, parted

# The bytes that an argument takes at least, the size of a pointer, and the alignment of i64.
TARGETS = {"mips": (4, 4, 8), "arm": (4, 4, 8), "i386": (4, 4, 4), "x86-64": (8, 8, 8)}
# Functions that optimisers know by name. With another parameter they need another name.
KNOWN = {*formats.FORMATTED, "asprintf", "scanf", "fscanf", "sscanf"}
PREFIX = "__variadic_"
BLOCK = "%variable.arguments"
FLOATING = {"half": 2, "float": 4, "double": 8, "fp128": 16, "x86_fp80": 16}


class Types:
    """The sizes and alignments of types on a target."""

    def __init__(self, lines, target):
        self.slot, self.pointer, self.wide = TARGETS[target]
        self.named = {it[1]: it[2] for it in (re.match(rf"(%{NAME}) = type (.*)$", line) for line in lines) if it}

    def of(self, kind):
        """The size and the alignment."""
        if kind == "ptr":
            return self.pointer, self.pointer
        if kind in FLOATING or re.fullmatch(r"i\d+", kind):
            bytes = FLOATING.get(kind) or (int(kind[1:]) + 7) // 8
            size = 1 << (bytes - 1).bit_length()
            return size, min(size, self.wide) if size <= 8 else 16
        if kind[0] == "%":
            return self.of(self.named[kind])
        if kind[0] == "[":
            count, each = re.match(r"\[(\d+) x (.*)\]$", kind).groups()
            size, align = self.of(each)
            return int(count) * size, align
        packed = kind[0] == "<"
        return self.struct(parted(kind.strip("<>")[1:-1]), packed)

    def struct(self, kinds, packed):
        at, most = 0, 1
        for size, align in map(self.of, kinds):
            align = 1 if packed else align
            at, most = up(at, align) + size, max(most, align)
        return up(at, most), most

    def places(self, arguments):
        """Where each argument lies on the stack, and where the next one would."""
        at, found = 0, []
        for text in arguments:
            copied = copied_type(text)
            size, align = self.of(copied or operand(text)[0])
            it = re.search(r" align (\d+)", text) if copied else None
            at = up(at, max(self.slot, int(it[1]) if it else align))
            found.append(at)
            at = up(at + size, self.slot)
        return found, at


def up(n, to):
    return (n + to - 1) // to * to


def copied_type(text):
    """The type of a struct that is handed on by value, by its address."""
    it = re.search(r"\bbyval\(", text)
    return text[it.end() : closing(text, it.end() - 1)] if it else None


def parameters(line):
    """Of a head: what stands in front of the name, the name, its parameters, and what stands behind them."""
    it = re.match(rf"((?:define|declare) [^@]*)@({NAME})\(", line)
    if not it:
        return None
    end = closing(line, it.end() - 1)
    return it[1], it[2], parted(line[it.end() : end]), line[end + 1 :]


def kinds(given):
    return [operand(it)[0] for it in given if it != "..."]


class Calling:
    """A call of a function by name or through a pointer: the type before it, where one stands, and its arguments."""

    FORM = re.compile(rf"^(\s+(?:%{NAME} = )?)((?:tail |musttail |notail )?)call (.*)$")
    NAMED = re.compile(rf"([@%]{NAME})\(")

    def __init__(self, line):
        self.callee = None
        self.attached = ATTACHED.search(line)[1]
        it = self.FORM.match(line[: len(line) - len(self.attached)])
        if not it:
            return
        self.front, self.tail, rest = it.groups()
        at, self.type = 0, None
        while at < len(rest):
            named = self.NAMED.match(rest, at)
            if named:
                break
            if rest[at] == "(":
                end = closing(rest, at)
                if not re.search(r"\b(align|dereferenceable|dereferenceable_or_null|range|byval|sret|memory)\s?$", rest[:at]) and rest[end + 1 : end + 2] == " ":
                    self.type, self.words = parted(rest[at + 1 : end]), rest[:at].rstrip()
                at = end
            elif rest[at] in "[{<":
                at = closing(rest, at)
            at += 1
        else:
            return
        if self.type is None:
            self.words = rest[:at].rstrip()
        end = closing(rest, named.end() - 1)
        self.callee, self.arguments, self.behind = named[1], parted(rest[named.end() : end]), rest[end + 1 :]

    def line(self, callee, arguments, behind):
        return f"{self.front}call {self.words} {callee}({', '.join(arguments)}){behind}{self.attached}"


class Lowering:
    """One module for a target. `library` are the variadic functions of the library, by name, each with its head."""

    def __init__(self, lines, target, library):
        self.lines, self.target, self.library = lines, target, library
        self.size = "i64" if target == "x86-64" else "i32"
        self.types, self.used, self.count = Types(lines, target), set(), 0
        self.untouched = {it[1] for it in (re.match(r"attributes (#\d+) = .*\bmemory\((?:none|inaccessiblemem)", line) for line in lines) if it}
        heads = [it for it in map(parameters, (line for line in lines if line.startswith("define "))) if it]
        self.fixed = {name: kinds(given) for _, name, given, _ in heads}
        self.variadic = {name: kinds(given) for _, name, given, _ in heads if given[-1:] == ["..."]}
        declared = {it[1] for it in (re.match(rf"declare .*?@({NAME})\(", line) for line in lines) if it}
        for name in declared & set(library):
            self.variadic[name] = kinds(library[name][2][:-1])
            self.used.add(name)
        addressed = {name for line in lines for name in re.findall(rf"@({NAME})(?![-\w$.(])", line)}
        self.addressed = [self.variadic[name] for name in self.variadic if name in addressed]
        self.texts = formats.literals(lines) if self.used else {}

    def done(self):
        out, last = [], 0
        for head, end in functions(self.lines):
            out += self.lines[last:head] + self.function(self.lines[head:end])
            last = end
        out += self.lines[last:]
        out = [self.renamed(line) for line in out]
        for name in sorted(self.used):
            front, _, given, _ = self.library[name]
            out.append(f"declare {front.split()[-1]} @{self.name(name)}({', '.join(kinds(given[:-1]) + ['ptr'])})")
        return out

    def name(self, name):
        return PREFIX + name if name in self.variadic and (name in KNOWN or name in self.library) else name

    def renamed(self, line):
        """The line with the new names of functions whose address it takes."""
        if not any(f"@{name}" in line for name in self.variadic):
            return line
        return re.sub(rf'"[^"]*"|@({NAME})(?![-\w$.(])', lambda it: f"@{self.name(it[1])}" if it[1] else it[0], line)

    def fresh(self, word):
        self.count += 1
        return f"%{word}.variable.{self.count}"

    def function(self, body):
        self.room = []
        front, name, given, behind = parameters(body[0])
        head = body[0]
        if name in self.variadic:
            head = f"{front}@{self.name(name)}({', '.join([*given[:-1], f'ptr {BLOCK}'])}){self.reading(behind)}"
        rest = [made for line in body[1:] for made in self.line(line)]
        at = 1 if rest and LABEL.match(rest[0]) else 0
        return [head, *rest[:at], *self.room, *rest[at:]]

    def reading(self, text):
        """The words behind parameters, without those that say that no memory is read."""
        return re.sub(r" (#\d+)", lambda it: "" if it[1] in self.untouched else it[0], re.sub(r" memory\(none\)", "", text))

    def line(self, line):
        if " call " not in line:
            return [line]
        if "@llvm.va_" in line:
            return self.list(line)
        if "..." not in line and not any(f"@{name}(" in line for name in self.variadic):
            return [line]
        call = Calling(line)
        if not call.callee or call.tail == "musttail ":
            return [line]
        name = call.callee[1:]
        if call.callee[0] == "@" and name not in self.variadic:
            return self.fitting(line, call, self.fixed.get(name))
        fixed = self.variadic[name] if call.callee[0] == "@" else kinds(call.type or [])
        if call.callee[0] == "%" and len(call.arguments) == len(fixed) and fixed not in self.addressed:
            return self.fitting(line, call, fixed)
        if kinds(call.arguments[: len(fixed)]) != fixed or self.is_left(line, call):
            return [line]
        return self.call(call, len(fixed))

    def is_left(self, line, call):
        """Whether a call is one that the library does not print."""
        if any(operand(it)[0] in FLOATING for it in call.arguments):
            return True
        name = call.callee[1:]
        return name in self.used and name in formats.FORMATTED and formats.why_not(line, self.texts) not in ("", formats.NO_LITERAL)

    def fitting(self, line, call, fixed):
        """A call of a function that was declared without parameters, as its definition has it."""
        if fixed is None or kinds(call.arguments[: len(fixed)]) != fixed:
            return [line]
        return [call.line(call.callee, call.arguments[: len(fixed)], call.behind)]

    def call(self, call, fixed):
        places, end = self.types.places(call.arguments)
        given = call.arguments[fixed:]
        start = places[fixed] if given else 0
        base = start // 16 * 16
        lines, block = [], "null"
        if given:
            room = self.fresh("room")
            self.room.append(f"  {room} = alloca [{end - base} x i8], align 16")
            for text, at in zip(given, places[fixed:]):
                lines += self.laid(text, room, at - base)
            place, block = self.place(room, start - base)
            lines += place
        callee = call.callee if call.callee[0] == "%" else "@" + self.name(call.callee[1:])
        words = call.line(callee, [*call.arguments[:fixed], f"ptr {block}"], self.reading(call.behind))
        debug = re.search(r", !dbg !\d+", call.attached)
        return [f"  {it}{debug[0] if debug else ''}" for it in lines] + [words]

    def place(self, room, at):
        if at == 0:
            return [], room
        name = self.fresh("at")
        return [f"{name} = getelementptr inbounds i8, ptr {room}, {self.size} {at}"], name

    def laid(self, text, room, at):
        """The instructions that lay an argument into a block."""
        (kind, value), copied = operand(text), copied_type(text)
        if value in ("undef", "poison"):
            return []
        lines, to = self.place(room, at)
        if copied:
            return lines + [f"call void @llvm.memcpy.p0.p0.{self.size}(ptr align 4 {to}, ptr {value}, {self.size} {self.types.of(copied)[0]}, i1 false)"]
        return lines + [f"store {kind} {value}, ptr {to}, align {min(self.types.slot, self.types.of(kind)[1])}"]

    def list(self, line):
        """What is done with a list of arguments. That of x86-64 has counts of what came in registers, here all, and the block behind
        them; the others are a pointer."""
        call = Calling(line)
        word = re.match(r"@llvm\.va_(\w+)", call.callee)[1]
        values = [operand(it)[1] for it in call.arguments]
        made = []
        if word == "start" and self.target == "x86-64":
            for at, kind, value in ((0, "i32", "48"), (4, "i32", "176"), (8, "ptr", BLOCK), (16, "ptr", "null")):
                lines, to = self.place(values[0], at)
                made += lines + [f"store {kind} {value}, ptr {to}, align {4 if kind == 'i32' else 8}"]
        elif word == "start":
            made = [f"store ptr {BLOCK}, ptr {values[0]}, align 4"]
        elif word == "copy" and self.target == "x86-64":
            made = [f"call void @llvm.memcpy.p0.p0.i64(ptr align 8 {values[0]}, ptr align 8 {values[1]}, i64 24, i1 false)"]
        elif word == "copy":
            name = self.fresh("list")
            made = [f"{name} = load ptr, ptr {values[1]}, align 4", f"store ptr {name}, ptr {values[0]}, align 4"]
        return [f"  {it}{call.attached}" for it in made]


def heads(lines):
    """The variadic functions that a lowered module defines, by the names that programs know."""
    found = [parameters(line) for line in lines if line.startswith("define ") and BLOCK in line]
    return {it[1].removeprefix(PREFIX): it for it in found}


def plain(lines, target, library):
    """The lines of a module without functions that take a variable number of arguments."""
    if not any("..." in line for line in lines):
        return lines
    out = Lowering(lines, target, library).done()
    copying = f"@llvm.memcpy.p0.p0.i{64 if target == 'x86-64' else 32}("
    if any(copying in line for line in out) and not any(line.startswith("declare ") and copying in line for line in out):
        size = "i64" if target == "x86-64" else "i32"
        out.append(f"declare void {copying}ptr, ptr, {size}, i1)")
    return out

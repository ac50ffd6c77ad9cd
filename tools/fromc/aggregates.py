"""Structs as parameters and results: what clang hands on in registers together becomes one register for each element, a result of
several elements goes through room of the caller, and a struct that is handed on by value is copied by the caller."""
import re

from text import ATTACHED, LABEL, NAME, closing, functions, operand, parted

SCALAR = r"(?:i\d+|ptr)"
GROUP = rf"(?:\[\d+ x {SCALAR}\]|\{{ {SCALAR}(?:, {SCALAR})* \}})"
GROUP_OR_COPY = re.compile(rf"{GROUP}|\bbyval\(")
DEFINED = re.compile(rf"^(\s+)(%{NAME}) = (.*)$")
CALL = re.compile(rf"^(\s+)(?:(%{NAME}) = )?(tail |notail )?(call .*?)(?<=\s)([@%]{NAME})\(")


def elements(group):
    it = re.fullmatch(r"\[(\d+) x (\w+)\]", group)
    return [it[2]] * int(it[1]) if it else [word.strip() for word in group[1:-1].split(",")]


def is_group(text):
    return re.fullmatch(GROUP, text) is not None


class Function:
    """One definition. `parts` are the registers that a group of values has become."""

    def __init__(self, body, size):
        self.body, self.size, self.count, self.room, self.parts = body, size, 0, [], {}

    def done(self):
        head = self.head(self.body[0])
        self.sources = {it[2]: it[3] for it in map(DEFINED.match, self.body) if it and re.search(GROUP, it[3])}
        rest = [made for line in self.body[1:] for made in self.line(line)]
        at = 1 if rest and LABEL.match(rest[0]) else 0
        return [head, *rest[:at], *self.room, *rest[at:]]

    def fresh(self, word):
        self.count += 1
        return f"%{word}.group.{self.count}"

    def head(self, line):
        it = re.match(rf"(define .*?)(?:({GROUP}) )?(@{NAME})\(", line)
        self.result = it[2]
        end = closing(line, it.end() - 1)
        given = ["ptr %result.group"] if self.result else []
        for text in parted(line[it.end() : end]):
            given += self.parameter(text)
        tail = unattributed(line[end:]) if self.result or "byval(" in line else line[end:]
        return f"{it[1]}{'void ' if self.result else ''}{it[3]}({', '.join(given)}{tail}"

    def parameter(self, text):
        kind, value = operand(text)
        if is_group(kind):
            self.parts[value] = [f"{value}.group.{k}" for k in range(len(elements(kind)))]
            return [f"{each} {name}" for each, name in zip(elements(kind), self.parts[value])]
        return [without_copy(text)]

    def values(self, kind, text):
        """The elements of a group."""
        if text in self.parts:
            return self.parts[text]
        if text in ("undef", "poison"):
            return [text] * len(elements(kind))
        if text == "zeroinitializer":
            return ["null" if it == "ptr" else "0" for it in elements(kind)]
        if text.startswith("%"):
            return self.made(kind, text)
        return [operand(it)[1] for it in parted(text[1:-1])]

    def made(self, kind, name):
        source = self.sources[name]
        it = re.match(rf"insertvalue {GROUP} (.*)$", source)
        if it:
            base, value, at = parted(ATTACHED.sub("", it[1]))
            self.parts[name] = list(self.values(kind, base))
            self.parts[name][int(at)] = operand(value)[1]
        else:
            self.parts[name] = [f"{name}.group.{k}" for k in range(len(elements(kind)))]
        return self.parts[name]

    def line(self, line):
        if not GROUP_OR_COPY.search(line):
            return [line]
        debug = re.search(r", !dbg !\d+", line)
        self.debug = debug[0] if debug else ""
        plain = ATTACHED.sub("", line)
        if " call " in plain:
            return self.call(plain) or [line]
        for form in (self.insertion, self.extraction, self.load, self.store, self.phi, self.choice, self.end):
            made = form(plain)
            if made is not None:
                return [it + self.debug for it in made]
        return [line]

    def insertion(self, line):
        it = DEFINED.match(line)
        if not it or not re.match(rf"insertvalue {GROUP} ", it[3]):
            return None
        self.values(re.match(rf"insertvalue ({GROUP})", it[3])[1], it[2])
        return []

    def extraction(self, line):
        it = re.match(rf"(\s+%{NAME} = )extractvalue ({GROUP}) (\S+), (\d+)$", line)
        if not it or self.is_pair(it[3]):
            return None
        return [f"{it[1]}freeze {elements(it[2])[int(it[4])]} {self.values(it[2], it[3])[int(it[4])]}"]

    def is_pair(self, name):
        return ".with.overflow." in self.sources.get(name, "")

    def places(self, kind, pointer):
        """The places of the elements, and the instructions that find them."""
        names = [self.fresh("at") for _ in elements(kind)]
        return names, [f"  {name} = getelementptr inbounds {kind}, ptr {pointer}, i32 0, i32 {k}" for k, name in enumerate(names)]

    def moved(self, kind, pointer, align, names):
        places, lines = self.places(kind, pointer)
        most = min(int(align or 1), 4)
        for each, place, name in zip(elements(kind), places, names):
            width = 4 if each == "ptr" else max(int(each[1:]) // 8, 1)
            yield each, place, name, min(most, width), lines
            lines = []

    def load(self, line):
        it = re.match(rf"\s+(%{NAME}) = load (volatile )?({GROUP}), ptr (.*?)(?:, align (\d+))?$", line)
        if not it:
            return None
        made = []
        for each, place, name, align, lines in self.moved(it[3], it[4], it[5], self.values(it[3], it[1])):
            made += lines + [f"  {name} = load {it[2] or ''}{each}, ptr {place}, align {align}"]
        return made

    def store(self, line):
        it = re.match(rf"\s+store (volatile )?({GROUP}) (.*)$", line)
        if not it:
            return None
        value, pointer, *align = parted(it[3])
        made = []
        for each, place, name, most, lines in self.moved(it[2], operand(pointer)[1], align[0].split()[1] if align else None, self.values(it[2], value)):
            made += lines + [f"  store {it[1] or ''}{each} {name}, ptr {place}, align {most}"]
        return made

    def phi(self, line):
        it = re.match(rf"\s+(%{NAME}) = phi ({GROUP}) (.*)$", line)
        if not it:
            return None
        ways = [parted(way[1:-1].strip()) for way in parted(it[3])]
        made = []
        for k, (each, name) in enumerate(zip(elements(it[2]), self.values(it[2], it[1]))):
            made.append(f"  {name} = phi {each} " + ", ".join(f"[ {self.values(it[2], value)[k]}, {label} ]" for value, label in ways))
        return made

    def choice(self, line):
        it = re.match(rf"\s+(%{NAME}) = (select|freeze) (.*)$", line)
        if not it:
            return None
        test, *given = parted(it[3]) if it[2] == "select" else ["", it[3]]
        kind = operand(given[0])[0]
        if not is_group(kind):
            return None
        sides = [self.values(kind, operand(side)[1]) for side in given]
        made = []
        for k, (each, name) in enumerate(zip(elements(kind), self.values(kind, it[1]))):
            made.append(f"  {name} = {it[2]} " + ", ".join(([test] if test else []) + [f"{each} {side[k]}" for side in sides]))
        return made

    def end(self, line):
        it = re.match(rf"\s+ret ({GROUP}) (.*)$", line)
        if not it:
            return None
        return self.store(f"  store {it[1]} {it[2]}, ptr %result.group, align 4") + ["  ret void"]

    def call(self, line):
        it = CALL.match(line)
        if not it or it[5].startswith("@llvm.") or "..." in it[4]:
            return None
        end = closing(line, it.end() - 1)
        front, given = [], []
        for text in parted(line[it.end() : end]):
            lines, words = self.argument(text)
            front += lines
            given += words
        found = re.search(rf"({GROUP}) $", it[4])
        words, tail, result = it[4], line[end:], it[2]
        if found or front:
            tail = unattributed(tail)
        if not found:
            whole = f"{it[1]}{result + ' = ' if result else ''}{words}{it[5]}({', '.join(given)}{tail}"
            return [each + self.debug for each in front + [whole]]
        room = self.fresh("room")
        self.room.append(f"  {room} = alloca {found[1]}, align 8")
        words = re.sub(r"\b(noundef|zeroext|signext) ", "", words[: found.start()]) + "void "
        lines = front + [f"{it[1]}{words}{it[5]}({', '.join([f'ptr {room}', *given])}{tail}"]
        if result:
            lines += self.load(f"  {result} = load {found[1]}, ptr {room}, align 4")
        return [each + self.debug for each in lines]

    def argument(self, text):
        kind, value = operand(text)
        if is_group(kind):
            return [], [f"{each} {name}" for each, name in zip(elements(kind), self.values(kind, value))]
        it = re.search(r"\bbyval\(", text)
        if not it:
            return [], [text]
        of = text[it.end() : closing(text, it.end() - 1)]
        align = re.search(r"\balign (\d+)", text)
        copy, behind, bytes = self.fresh("copy"), self.fresh("behind"), self.fresh("bytes")
        self.room.append(f"  {copy} = alloca {of}, align {align[1] if align else 8}")
        lines = [f"  {behind} = getelementptr {of}, ptr null, i32 1", f"  {bytes} = ptrtoint ptr {behind} to {self.size}"]
        lines.append(f"  call void @llvm.memcpy.p0.p0.{self.size}(ptr {copy}, ptr {value}, {self.size} {bytes}, i1 false)")
        return lines, [f"ptr {copy}"]


def unattributed(tail):
    """What stands behind parameters, without attributes: they may say that no memory is touched, and now some is."""
    return re.sub(r" (#\d+|memory\([^)]*\))", "", tail)


def without_copy(text):
    """A parameter without the word that it is a copy; the caller makes it."""
    it = re.search(r"\bbyval\(", text)
    return text[: it.start()] + text[closing(text, it.end() - 1) + 1 :].lstrip() if it else text


def scalar(lines, size):
    """The lines without groups of values in registers."""
    if not any(GROUP_OR_COPY.search(line) for line in lines if line.startswith((" ", "define "))):
        return lines
    out, last = [], 0
    for head, end in functions(lines):
        body = lines[head:end]
        out += lines[last:head]
        out += Function(body, size).done() if any(GROUP_OR_COPY.search(line) for line in body) else body
        last = end
    out += lines[last:]
    copying = f"@llvm.memcpy.p0.p0.{size}("
    if any(copying in line for line in out) and not any(line.startswith("declare") and copying in line for line in out):
        out.append(f"declare void {copying}ptr, ptr, {size}, i1)")
    return out

"""Integers of widths that the profile leaves out, as clang makes them of bit fields and of structs of 3, 5, 6 and 7 bytes: each becomes
one of the next greater width whose upper bits are 0."""
import re

from text import ATTACHED, NAME, functions, parted

KEPT = (1, 8, 16, 32, 64)
TOKEN = re.compile(r"(?<![-%@.\w$])i(\d+)(?![-.\w$:])")
RESULT = re.compile(rf"^(\s+)(?:(%{NAME}) = )?(.*)$")
BINARY = re.compile(r"(add|sub|mul|udiv|sdiv|urem|srem|and|or|xor|shl|lshr|ashr) (?:nuw |nsw |exact |disjoint )*(i\d+) (.*)$")
CAST = re.compile(r"(trunc|zext|sext) (?:nuw |nsw |nneg )*(i\d+) (.*) to (i\d+)$")
COMPARISON = re.compile(r"icmp (?:samesign )?(\w+) (i\d+) (.*)$")
SIGNED = ("sdiv", "srem", "ashr")
# Results of these operators may have bits above their width.
WIDER = ("add", "sub", "mul", "shl", "sdiv", "srem", "ashr")
# In these a type stands for itself, with a value behind it.
ALONE = re.compile(r"((?:tail |notail )?call|phi|select|freeze|ret|switch|alloca|getelementptr)\b")
VALUED = re.compile(rf'"[^"]*"|{TOKEN.pattern}((?: (?:noundef|signext|zeroext|inreg|returned))* -?\d+\b)?')


def is_odd(kind):
    return re.fullmatch(r"i\d+", kind) is not None and int(kind[1:]) not in KEPT and int(kind[1:]) < 64


def wide(kind):
    return f"i{next(it for it in KEPT if it >= int(kind[1:]))}" if is_odd(kind) else kind


def mask(kind):
    return (1 << int(kind[1:])) - 1


def has_odd(line):
    return any(is_odd(f"i{it}") for it in TOKEN.findall(re.sub(r'"[^"]*"', "", line)))


class Widening:
    """One function. `first` says whether the most significant byte comes first; new registers begin with a word."""

    def __init__(self, first, word):
        self.first, self.word, self.count = first, word, 0

    def line(self, line):
        if not has_odd(line):
            return [line]
        attached = ATTACHED.search(line)[1]
        indent, name, text = RESULT.match(line[: len(line) - len(attached)]).groups()
        if ALONE.match(text) and "@llvm." not in text:
            return [f"{indent}{name + ' = ' if name else ''}{self.alone(text)}{attached}"]
        debug = re.search(r", !dbg !\d+", attached)
        self.made = []
        for form in (self.load, self.store, self.binary, self.cast, self.comparison):
            last = form(text)
            if last is not None:
                if last:
                    self.made.append(f"{name} = {last}")
                return [f"{indent}{it}{debug[0] if debug else ''}" for it in self.made]
        return [line]

    def add(self, text):
        self.count += 1
        name = f"%{self.word}.{self.count}"
        self.made.append(f"{name} = {text}")
        return name

    def places(self, kind, pointer):
        """The places of the bytes, from the least significant on."""
        count = int(kind[1:]) // 8
        for k in range(count):
            at = count - 1 - k if self.first else k
            yield k, self.add(f"getelementptr i8, ptr {pointer}, i32 {at}") if at else pointer

    def load(self, text):
        it = re.match(r"load (volatile )?(i\d+), ptr (.*?)(?:, align \d+)?$", text)
        if not it or not is_odd(it[2]) or int(it[2][1:]) % 8:
            return None
        to, sum = wide(it[2]), "0"
        for k, place in self.places(it[2], it[3]):
            byte = self.add(f"zext i8 {self.add(f'load {it[1] or str()}i8, ptr {place}, align 1')} to {to}")
            sum = self.add(f"or {to} {sum}, {self.add(f'shl {to} {byte}, {8 * k}')}")
        return f"freeze {to} {sum}"

    def store(self, text):
        it = re.match(r"store (volatile )?(i\d+) (.*?), ptr (.*?)(?:, align \d+)?$", text)
        if not it or not is_odd(it[2]) or int(it[2][1:]) % 8:
            return None
        value, kind = constant(it[2], it[3]), wide(it[2])
        for k, place in self.places(it[2], it[4]):
            byte = self.add(f"lshr {kind} {value}, {8 * k}")
            self.made.append(f"store {it[1] or ''}i8 {self.add(f'trunc {kind} {byte} to i8')}, ptr {place}, align 1")
        return ""

    def signed(self, kind, value):
        """The value with the sign in the upper bits too."""
        to, by = wide(kind), int(wide(kind)[1:]) - int(kind[1:])
        return self.add(f"ashr {to} {self.add(f'shl {to} {value}, {by}')}, {by}")

    def cut(self, kind, text):
        return f"and {wide(kind)} {self.add(text)}, {mask(kind)}"

    def binary(self, text):
        it = BINARY.match(text)
        if not it or not is_odd(it[2]):
            return None
        a, b = (constant(it[2], value) for value in parted(it[3]))
        if it[1] in SIGNED:
            a, b = self.signed(it[2], a), b if it[1] == "ashr" else self.signed(it[2], b)
        made = f"{it[1]} {wide(it[2])} {a}, {b}"
        return self.cut(it[2], made) if it[1] in WIDER else made

    def cast(self, text):
        it = CAST.match(text)
        if not it or not (is_odd(it[2]) or is_odd(it[4])):
            return None
        value, source, to = constant(it[2], it[3]), wide(it[2]), wide(it[4])
        if it[1] == "sext" and is_odd(it[2]):
            value = self.signed(it[2], value)
        made = f"freeze {to} {value}" if source == to else f"{it[1]} {source} {value} to {to}"
        return self.cut(it[4], made) if is_odd(it[4]) and it[1] != "zext" else made

    def comparison(self, text):
        it = COMPARISON.match(text)
        if not it or not is_odd(it[2]):
            return None
        a, b = (constant(it[2], value) for value in parted(it[3]))
        if it[1][0] == "s":
            a, b = self.signed(it[2], a), self.signed(it[2], b)
        return f"icmp {it[1]} {wide(it[2])} {a}, {b}"

    def alone(self, text):
        if not text.startswith("phi "):
            return renamed(text)
        kind = text.split()[1]
        return re.sub(r"\[ (-?\w+),", lambda it: f"[ {constant(kind, it[1])},", text.replace(kind, wide(kind), 1))


def constant(kind, value):
    """A value of an odd width as one of the next greater width."""
    if value == "undef":
        return "0"
    return str(int(value) & mask(kind)) if is_odd(kind) and re.fullmatch(r"-?\d+", value) else value


def renamed(text, by_place=False):
    """The text with each odd type, and the number behind it, as the next greater one; `by_place` for objects whose most significant
    byte comes first."""

    def one(it):
        kind = f"i{it[1]}" if it[1] else ""
        if not is_odd(kind):
            return it[0]
        value = it[2] or ""
        number = re.search(r"-?\d+$", value)
        if number:
            by = int(wide(kind)[1:]) - int(kind[1:]) if by_place else 0
            value = value[: number.start()] + str((int(number[0]) & mask(kind)) << by)
        return wide(kind) + value

    return VALUED.sub(one, text)


def kept(lines, first, word):
    """The lines of a module with integers of the kept widths."""
    if not any(has_odd(line) for line in lines if not line.startswith(("!", "declare ", "attributes ", "source_filename"))):
        return lines
    out, last = [], 0
    for head, end in functions(lines):
        out += [outside(line, first) for line in lines[last:head]]
        it = Widening(first, word)
        out.append(renamed(lines[head]))
        out += [made for line in lines[head + 1 : end] for made in it.line(line)]
        last = end
    return out + [outside(line, first) for line in lines[last:]]


def outside(line, first):
    """A type, an object or a declaration."""
    return renamed(line, first) if line.startswith(("%", "@", "declare ")) and "@llvm." not in line else line

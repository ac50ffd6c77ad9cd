"""Calls of printf and its kin become plain calls, one for each piece of a literal format."""
import re

from text import Call, operand

# Which argument is the format.
FORMATTED = {"printf": 0, "fprintf": 1, "sprintf": 1, "snprintf": 2}
PIECE = re.compile(rb"%([-+ #0]*)(\*|\d*)(?:\.(\*|-?\d*))?(hh|h|ll|l|j|z|t|L|q)?(.)", re.S)
FLAGS = {ord("-"): 1, ord("+"): 2, ord(" "): 4, ord("#"): 8, ord("0"): 16}
UPPER = 32
DECLARED = {
    "__print_text": "i32 @__print_text(ptr, ptr, iS)",
    "__print_character": "i32 @__print_character(ptr, i32, i32, i32)",
    "__print_string": "i32 @__print_string(ptr, ptr, i32, i32, i32)",
    "__print_signed": "i32 @__print_signed(ptr, i64, i32, i32, i32)",
    "__print_unsigned": "i32 @__print_unsigned(ptr, i64, i32, i32, i32, i32)",
    "__print_pointer": "i32 @__print_pointer(ptr, ptr, i32, i32)",
    "__print_open": "ptr @__print_open(ptr, iS)",
    "__print_close": "i32 @__print_close(ptr, iS)",
}


NO_LITERAL = "its format is no literal"


class NotLiteral(Exception):
    """Why a call of printf stays one."""


def literals(lines):
    """The bytes of each constant string."""
    found = {}
    for line in lines:
        it = re.match(r'@([-\w$.]+) = .*?constant \[\d+ x i8\] (?:c"([^"]*)"|zeroinitializer)', line)
        if it:
            text = (it[2] if it[2] is not None else "\\00").encode("latin-1")
            found[it[1]] = re.sub(rb"\\([0-9A-F]{2}|\\)", lambda e: b"\\" if e[1] == b"\\" else bytes([int(e[1], 16)]), text)
    return found


class Rewriting:
    """One call. `size` is the type of size_t, `wide` whether long has 64 bits."""

    def __init__(self, call, texts, size, number):
        self.call, self.size, self.number, self.lines, self.parts = call, size, number, [], []
        values = call.values()
        at = FORMATTED[call.name]
        self.format = re.fullmatch(r"@([-\w$.]+)", values[at][1])
        if not self.format or self.format[1] not in texts or 0 not in texts[self.format[1]]:
            raise NotLiteral(NO_LITERAL)
        self.format = self.format[1]
        self.text = texts[self.format].split(b"\0")[0]
        self.left = values[at + 1 :]
        self.first = values[:at]

    def add(self, line, name=None):
        name = name or f"%print.{self.number}.{len(self.lines)}"
        self.lines.append(f"{self.call.indent}{name} = {line}{self.call.attached}")
        return name

    def piece(self, name, *arguments):
        self.parts.append(self.add(f"call i32 @{name}(" + ", ".join(("ptr " + self.stream, *arguments)) + ")"))

    def open(self):
        self.room = None
        if self.call.name == "printf":
            # The second of the three standard streams.
            return self.streams()
        if self.call.name == "fprintf":
            return self.first[0][1]
        self.room = self.first[1][1] if self.call.name == "snprintf" else "-1"
        return self.add(f"call ptr @__print_open(ptr {self.first[0][1]}, {self.size} {self.room})")

    def streams(self):
        words = {"i32": "{ i8, i8, i8, i8, ptr, i32 }", "i64": "{ i8, i8, i8, i8, ptr, i64 }"}[self.size]
        return f"getelementptr inbounds ([3 x {words}], ptr @__streams, i32 0, i32 1)"

    def taken(self, kinds, what):
        if not self.left:
            raise NotLiteral(f"{what} has no argument")
        kind, value = self.left.pop(0)
        if kind not in kinds:
            raise NotLiteral(f"{what} stands for an argument of type {kind}")
        return kind, value

    def measure(self, text, otherwise):
        """A width or precision, which may be an argument."""
        if text is None:
            return str(otherwise)
        if text == b"*":
            return self.taken(("i32",), "*")[1]
        return str(int(text or b"0"))

    def widened(self, word, signed, short):
        """An integer argument as one of 64 bits, cut to its own width first."""
        kind, value = self.taken(("i32", "i64"), "%" + word)
        if short:
            value = self.add(f"trunc i32 {value} to {short}")
            kind = short
        if kind == "i64":
            return value
        return self.add(f"{'sext' if signed else 'zext'} {kind} {value} to i64")

    def conversion(self, it):
        flags = 0
        for c in it[1]:
            flags |= FLAGS[c]
        width = self.measure(it[2] or None, 0)
        precision = self.measure(it[3], -1)
        word = it[5].decode("latin-1")
        short = {b"hh": "i8", b"h": "i16"}.get(it[4])
        if word in "di":
            value = self.widened(word, True, short)
            self.piece("__print_signed", f"i64 {value}", f"i32 {flags}", f"i32 {width}", f"i32 {precision}")
        elif word in "uxXo":
            value = self.widened(word, False, short)
            base = {"u": 10, "o": 8}.get(word, 16)
            flags |= UPPER if word == "X" else 0
            self.piece("__print_unsigned", f"i64 {value}", f"i32 {base}", f"i32 {flags}", f"i32 {width}", f"i32 {precision}")
        elif word == "c" and not it[4]:
            value = self.taken(("i32",), "%c")[1]
            self.piece("__print_character", f"i32 {value}", f"i32 {flags}", f"i32 {width}")
        elif word == "s" and not it[4]:
            value = self.taken(("ptr",), "%s")[1]
            self.piece("__print_string", f"ptr {value}", f"i32 {flags}", f"i32 {width}", f"i32 {precision}")
        elif word == "p":
            value = self.taken(("ptr",), "%p")[1]
            self.piece("__print_pointer", f"ptr {value}", f"i32 {flags}", f"i32 {width}")
        else:
            raise NotLiteral(f"its format has {it[0].decode('latin-1')}, which the library does not print")

    def literal(self, start, end):
        if end > start:
            at = f"getelementptr inbounds (i8, ptr @{self.format}, i32 {start})" if start else f"@{self.format}"
            self.piece("__print_text", f"ptr {at}", f"{self.size} {end - start}")

    def done(self):
        self.stream = self.open()
        last = at = 0
        while (at := self.text.find(b"%", at)) >= 0:
            if self.text[at : at + 2] == b"%%":
                self.literal(last, at + 1)
                last = at = at + 2
                continue
            it = PIECE.match(self.text, at)
            if not it:
                raise NotLiteral("its format ends inside a conversion")
            self.literal(last, at)
            self.conversion(it)
            last = at = it.end()
        self.literal(last, len(self.text))
        if self.room is not None:
            self.parts.append(self.add(f"call i32 @__print_close(ptr {self.stream}, {self.size} {self.room})"))
        total = self.parts[0] if self.parts else "0"
        if self.call.result:
            for it in self.parts[1:]:
                total = self.add(f"add i32 {total}, {it}")
            self.add(f"add i32 {total}, 0", self.call.result)
        return self.lines


def rewritten(lines, size):
    """The lines with calls of printf parted, where their formats allow it."""
    if not any(f"@{name}" in line for line in lines for name in FORMATTED):
        return lines
    own = {name for name in FORMATTED if any(re.match(rf"define .*@{name}\(", line) for line in lines)}
    texts, out, used = literals(lines), [], set()
    for number, line in enumerate(lines):
        call = Call(line) if "call " in line and "@" in line else None
        if not call or call.name not in FORMATTED or call.name in own:
            out.append(line)
            continue
        try:
            made = Rewriting(call, texts, size, number).done()
        except NotLiteral:
            out.append(line)
            continue
        out += made
        used.update(re.findall(r"@(__print_\w+|__streams)", "\n".join(made)))
    words = "\n".join(lines)
    for name in sorted(used):
        if not re.search(rf"^(declare|define) .*@{name}\(", words, re.M) and name in DECLARED:
            out.append("declare " + DECLARED[name].replace("iS", size))
    if "__streams" in used and not re.search(r"^@__streams =", words, re.M):
        out.append(f"@__streams = external global [3 x {{ i8, i8, i8, i8, ptr, {size} }}]")
    return out


def why_not(line, texts):
    """Why a call of printf stays one. The texts are those of `literals`."""
    call = Call(line)
    try:
        Rewriting(call, texts, "i32", 0).done()
    except NotLiteral as it:
        return str(it)
    return ""

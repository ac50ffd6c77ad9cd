"""Texts of LLVM, line by line, as opt and llvm-link print them: one instruction a line."""
import re

NAME = r'(?:[-\w$.]+|"(?:[^"])*")'
ATTACHED = re.compile(r"((?:, ![\w.]+ !\d+)*)$")
CALL = re.compile(rf"^(\s+)(?:(%{NAME}) = )?((?:tail |musttail |notail )?call )(.*)$")
DEFINE = re.compile(rf"^define .*?@({NAME})\(")
LABEL = re.compile(rf"^({NAME}):")
OPEN, CLOSED = "([{<", ")]}>"


def closing(text, start):
    """Where the bracket that opens at start is closed."""
    depth, quoted = 0, False
    for at in range(start, len(text)):
        c = text[at]
        if c == '"':
            quoted = not quoted
        elif not quoted and c in OPEN:
            depth += 1
        elif not quoted and c in CLOSED:
            depth -= 1
            if depth == 0:
                return at
    return len(text)


def parted(text):
    """The parts between commas outside brackets and strings."""
    parts, depth, quoted, last = [], 0, False, 0
    for at, c in enumerate(text):
        if c == '"':
            quoted = not quoted
        elif quoted:
            continue
        elif c in OPEN:
            depth += 1
        elif c in CLOSED:
            depth -= 1
        elif c == "," and depth == 0:
            parts.append(text[last:at].strip())
            last = at + 1
    rest = text[last:].strip()
    return parts + [rest] if rest or parts else []


def operand(text):
    """The type and the value of an argument, its attributes left out."""
    if text[0] in "[{<":
        end = closing(text, 0) + 1
    elif text[0] == "%":
        end = re.match(rf"%{NAME}", text).end()
    else:
        end = re.match(r"\w+", text).end()
    kind, rest = text[:end], text[end:].strip()
    while True:
        if re.match(r'[%@\-\d\[{<"!]|c"|(true|false|null|undef|poison|zeroinitializer|getelementptr|inttoptr|ptrtoint|metadata)\b', rest):
            return kind, rest
        it = re.match(r"align \d+\s*|\w+", rest)
        if not it:
            return kind, rest
        rest = rest[it.end():].lstrip()
        if rest.startswith("("):
            rest = rest[closing(rest, 0) + 1:].lstrip()


class Call:
    """A call by name: `indent [result =] word kind @name(arguments) tail`, and what is attached."""

    def __init__(self, line):
        it = CALL.match(line)
        self.name = None
        if not it:
            return
        self.indent, self.result, self.word, rest = it.groups()
        self.attached = ATTACHED.search(rest)[1]
        rest = rest[: len(rest) - len(self.attached)]
        depth = quoted = 0
        for at, c in enumerate(rest):
            if c == '"':
                quoted = not quoted
            if quoted or c not in "([{<>}])@":
                continue
            depth += (c in OPEN) - (c in CLOSED)
            if c == "@" and depth == 0:
                found = re.match(rf"@({NAME})\(", rest[at:])
                if not found:
                    return
                end = closing(rest, at + found.end() - 1)
                self.name = found[1]
                self.kind = rest[:at].strip()
                self.arguments = parted(rest[at + found.end() : end])
                self.tail = rest[end + 1 :].strip()
                return
            if c == "(" and re.search(r"%\S*$", rest[:at]):
                return

    def values(self):
        return [operand(it) for it in self.arguments]


def functions(lines):
    """The places [head, end) of definitions."""
    head = None
    for at, line in enumerate(lines):
        if head is None and line.startswith("define "):
            head = at
        elif head is not None and line == "}":
            yield head, at
            head = None


def named(lines):
    """The lines with each numbered register and block named, so that lines can come and go."""
    out, last = [], 0
    for head, end in functions(lines):
        out += lines[last:head]
        last = end
        out += body_named(lines[head:end])
    return out + lines[last:]


def body_named(body):
    text = "\n".join(body)
    if not re.search(r"%\d", text) and not re.search(r"^\d+:", text, re.M):
        return body
    marks = '"[^"]*"'
    text = re.sub(rf"{marks}|%(\d+)\b", lambda it: f"%unnamed.{it[1]}" if it[1] else it[0], text)
    text = re.sub(r"^(\d+):", r"unnamed.\1:", text, flags=re.M)
    lines = text.split("\n")
    if not LABEL.match(lines[1]):
        count = len(re.findall(r"%unnamed\.\d+", lines[0]))
        lines.insert(1, f"unnamed.{count}:")
    return lines


def blocks(body):
    """For each label its line and those of the blocks that may follow."""
    label, found = None, {}
    for at, line in enumerate(body):
        it = LABEL.match(line)
        if it or at == 1:
            label = it[1] if it else ""
            found[label] = (at, set())
        if label is not None:
            found[label][1].update(re.findall(rf"label %({NAME})", line))
    return found


def on_circle(body):
    """The lines of blocks that may run more than once in a call of the function."""
    found, lines = blocks(body), set()
    places = sorted((at, label) for label, (at, _) in found.items())
    for k, (at, label) in enumerate(places):
        seen, left = set(), list(found[label][1])
        while left:
            it = left.pop()
            if it not in seen and it in found:
                seen.add(it)
                left += found[it][1]
        if label in seen:
            lines.update(range(at, places[k + 1][0] if k + 1 < len(places) else len(body)))
    return lines

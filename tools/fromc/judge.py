"""What of a text is outside the profile, by a search for the words that are left out or by the program, and where it stands
in the C source."""
import re, subprocess

from formats import FORMATTED
from text import NAME

TYPES = ("i1", "i8", "i16", "i32", "i64")
LEFT_OUT = set(
    "half bfloat float double fp128 x86_fp80 ppc_fp128 token metadata opaque extractvalue insertvalue extractelement insertelement shufflevector "
    "fneg fadd fsub fmul fdiv frem fcmp atomicrmw cmpxchg fence atomic invoke callbr resume landingpad catchpad cleanuppad catchswitch va_arg indirectbr "
    "asm addrspace addrspacecast thread_local external extern_weak alias ifunc comdat personality module byval inalloca preallocated swifterror nest".split()
)
NO_FORM = set("blockaddress dso_local_equivalent no_cfi appending externally_initialized inrange uselistorder".split())
EXTERNALS = set("getchar putchar puts malloc calloc free exit abort llvm.lifetime.start.p0 llvm.lifetime.end.p0 llvm.assume".split())
EXTERNALS |= {f"llvm.{it}.p0.i{n}" for n in (32, 64) for it in ("memcpy.p0", "memmove.p0", "memset")}
EXTERNALS |= {f"llvm.bswap.i{n}" for n in (16, 32, 64)}
EXTERNALS |= {f"llvm.{it}.i{n}" for n in (8, 16, 32, 64) for it in ("umin", "umax", "smin", "smax")}
FAULTS = {
    "1": "names what is not defined",
    "2": "defines a name twice",
    "3": "has a type that its place does not allow (an aggregate in a register?)",
    "4": "has a block without an end",
    "5": "has a phi that does not fit its block",
    "6": "uses a register that some path does not assign",
    "7": "is an external that the program does not have",
}
WHOLE = {
    "8": "there is no main that gives int and takes nothing or (int, char **)",
    "9": "there are too many globals or functions",
    "10": "there is a type of more than 268435456 bytes",
}
EXPRESSION = re.compile(r"\b(add|sub|mul|shl|xor|trunc|zext|sext|bitcast|icmp \w+|select) (?:nsw |nuw )*\(")
AGGREGATE = re.compile(r"^\s.*\b(load|store|phi|ret|freeze) (volatile )?(\[|\{|<|%[^ ,]* %)")


def bare(line):
    """The line with its strings emptied and its comment gone."""
    return re.sub(r'"[^"]*"|(;.*)', lambda it: "" if it[1] else '""', line)


def finding(line):
    """The first thing of a line that is left out: a word and what is said of it."""
    if line.startswith(("source_filename", "target", "!", "attributes")):
        return None
    line = re.sub(r", !dbg !\d+", "", bare(line))
    if it := re.search(r"<\d+ x [^>]*>", line):
        return it[0], "is a vector"
    if "..." in line:
        return "...", "is a variable number of arguments"
    if re.search(r"getelementptr [a-z ]*\([^()]*getelementptr", line):
        return "getelementptr", "stands in a constant getelementptr"
    if it := EXPRESSION.search(line):
        return it[1], "is a constant expression that is left out"
    if re.match(r"define [^@(]*(\[|\{|%)", line) or re.search(r"call [^@(]*(\[|\{|%[^ ]* @)", line):
        return "result", "is an aggregate as a register value"
    if AGGREGATE.match(line) and not re.search(r"ret \[|phi [a-z]", line):
        return "aggregate", "stands in a register"
    for word in re.sub(r"[^-\w$.]+", " ", re.sub(r'[@%!#](""|[-\w$.]+)', " ", line)).split():
        if word in LEFT_OUT:
            return word, "is left out"
        if word in NO_FORM:
            return word, "is no form"
        if re.fullmatch(r"i\d+", word) and word not in TYPES:
            return word, "is an integer type that is left out"
    return None


class Place:
    """Where lines of a text come from, by its debug metadata."""

    def __init__(self, lines):
        self.nodes = {it[1]: it[2] for it in (re.match(r"(!\d+) = (?:distinct )?(.*)", line) for line in lines) if it}

    def field(self, node, name):
        it = re.search(rf'\b{name}: (!\d+|\d+|"[^"]*")', self.nodes.get(node, ""))
        return it[1].strip('"') if it else None

    def of(self, line):
        it = re.search(r"!dbg (!\d+)", line)
        if not it:
            return None
        scope, number = it[1], self.field(it[1], "line")
        while scope and "!DIFile(" not in self.nodes.get(scope, ""):
            scope = self.field(scope, "file") or self.field(scope, "scope")
        name = self.field(scope, "filename") if scope else None
        return f"{name}:{number}" if name and number else None


def findings(lines):
    """Each thing that is left out: where it stands in the source, the word, what is said of it, and its line."""
    place, found = Place(lines), {}
    known = EXTERNALS | {it[1] for it in (re.match(rf"define .*?@({NAME})\(", line) for line in lines) if it}
    declared = {it[1] for it in (re.match(rf"declare .*?@({NAME})\(", line) for line in lines) if it} - known
    head = None
    for line in lines:
        if line.startswith("define "):
            head = line
        elif line == "}":
            head = None
        if line.startswith("declare "):
            continue
        said = finding(line)
        if (said is None or said[0] == "...") and declared and "@" in line:
            unknown = [it for it in re.findall(rf"@({NAME})", line) if it in declared and not (said and it in FORMATTED)]
            said = (unknown[0], "is a function that neither the program nor the library has") if unknown else said
        if said is None and " external " in line and line.startswith("@"):
            said = line[1:].split(" ")[0], "is an object that no file defines"
        if said:
            at = place.of(line) or (place.of(head) if head else None) or "?"
            found.setdefault((at, *said), line.strip())
    return [(*it, line) for it, line in found.items()]


def by_program(program, file):
    """What the program says of a text, or nothing where it accepts it."""
    ran = subprocess.run([program, "local", file, "--steps", "0"], stdin=subprocess.DEVNULL, stdout=subprocess.DEVNULL, stderr=subprocess.PIPE, text=True, errors="replace")
    last = (ran.stderr.strip().split("\n") or [""])[-1].removeprefix("nativeoff: ")
    if last.startswith(("unfinished", "exited", "trapped")):
        return ""
    words = last.split()
    if words[:3] == ["bad", "module", "verify"]:
        if words[3] in WHOLE:
            return WHOLE[words[3]]
        return f"function {named(file, int(words[5]))}, block {words[7]}, place {words[9]} {FAULTS.get(words[3], 'is refused')}"
    if words[:2] == ["bad", "module"] and words[2] in ("lex", "read"):
        return f"{shown(file, int(words[5]))} is outside the profile ({last})"
    return last or "the program answered nothing"


def named(file, number):
    heads = [line for line in open(file, errors="replace") if line.startswith(("define ", "declare "))]
    it = re.search(rf"@({NAME})", heads[number]) if number < len(heads) else None
    return it[1] if it else str(number)


def shown(file, at):
    text = open(file, "rb").read()
    line = text[:at].count(b"\n") + 1
    whole = text.split(b"\n")[line - 1].decode("latin-1").strip()
    return f"'{re.match(r'[-@%!#]?[-.$]?[A-Za-z0-9_.$-]*', text[at : at + 60].decode('latin-1'))[0] or text[at : at + 1].decode('latin-1')}' in line {line} ({whole[:100]})"

"""Other names of definitions, labels as values, and functions that run before main: an alias gives way to what it names, the address
of a label is a number, by which a `goto` to an address chooses among the labels, a weak declaration is null, and main begins with
calls of constructors."""
import re

from text import ATTACHED, LABEL, NAME

ALIAS = re.compile(rf"^@({NAME}) = (?:[^\"@]* )?alias [^@]*, ptr (@{NAME}|getelementptr .*)$")
ADDRESS = re.compile(rf"blockaddress\((@{NAME}), (%{NAME})\)")
GOTO = re.compile(rf"^(\s+)indirectbr ptr (.*), \[(.*)\]$")


def without_aliases(lines):
    named = {it[1]: it[2] for it in map(ALIAS.match, lines) if it and it[1] != "main"}
    if not named:
        return lines
    pattern = re.compile(rf'"[^"]*"|@({"|".join(map(re.escape, named))})(?![-\w$.])')

    def plain(text):
        return pattern.sub(lambda it: plain(named[it[1]]) if it[1] else it[0], text)

    return [plain(line) for line in lines if not ((it := ALIAS.match(line)) and it[1] in named)]


def with_numbers(lines, size):
    """The lines without addresses of labels."""
    if not any("blockaddress(" in line or " indirectbr " in line for line in lines):
        return lines
    numbers, out, function = {}, [], None

    def number(function, label):
        return numbers.setdefault((function, label), len(numbers) + 1)

    for at, line in enumerate(lines):
        if line.startswith("define "):
            function = re.match(rf"define [^@]*(@{NAME})\(", line)[1]
        line = ADDRESS.sub(lambda it: f"inttoptr ({size} {number(it[1], it[2])} to ptr)", line)
        attached = ATTACHED.search(line)[1]
        it = GOTO.match(line[: len(line) - len(attached)])
        if it:
            labels = list(dict.fromkeys(re.findall(rf"label (%{NAME})", it[3])))
            chosen, front = f"%label.number.{at}", it[1]
            cases = " ".join(f"{size} {number(function, label)}, label {label}" for label in labels[1:])
            out.append(f"{front}{chosen} = ptrtoint ptr {it[2]} to {size}{attached}")
            line = f"{front}switch {size} {chosen}, label {labels[0]} [ {cases} ]{attached}" if labels else f"{front}unreachable"
        out.append(line)
    return out


def listed(lines, name):
    """The functions of a list of what runs before or after main, in the order of their priorities."""
    found = [it for line in lines if line.startswith(f"@llvm.global_{name} ") for it in re.findall(rf"{{ i32 (\d+), ptr (@{NAME}), ptr [^ ]+ }}", line)]
    return [function for _, function in sorted(found, key=lambda it: int(it[0]))]


def constructed(lines):
    """The lines without lists of what is kept, and with calls of the constructors at the beginning of main. Destructors are
    registered there."""
    before, after = listed(lines, "ctors"), listed(lines, "dtors")
    lines = [line for line in lines if not line.startswith(("@llvm.used ", "@llvm.compiler.used ", "@llvm.global_ctors ", "@llvm.global_dtors "))]
    main = next((k for k, line in enumerate(lines) if re.match(r"define [^@]*@main\(", line)), None)
    if main is None or not before + after:
        return lines
    calls = [f"  %registered.{k} = call i32 @atexit(ptr {name})" for k, name in enumerate(after)] + [f"  call void {name}()" for name in before]
    first = main + 2 if LABEL.match(lines[main + 1]) else main + 1
    known = any(re.match(r"(declare|define) [^@]*@atexit\(", line) for line in lines)
    return lines[:first] + calls + lines[first:] + ([] if known or not after else ["declare i32 @atexit(ptr)"])


def without_weak(lines):
    """Weak declarations of what no file defines are null."""
    found = {it[1] for it in (re.match(rf"(?:declare [^@]*\bextern_weak [^@]*@|@)({NAME})(?:\(| = extern_weak )", line) for line in lines) if it}
    if not found:
        return lines
    pattern = re.compile(rf'"[^"]*"|@({"|".join(map(re.escape, found))})(?![-\w$.])')
    kept = [line for line in lines if "extern_weak " not in line or not line.startswith(("declare ", "@"))]
    return [pattern.sub(lambda it: "null" if it[1] else it[0], line) for line in kept]


def plain(lines, size):
    return with_numbers(without_aliases(without_weak(constructed(lines))), size)

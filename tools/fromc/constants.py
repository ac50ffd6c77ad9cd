"""Constant expressions that the profile leaves out become instructions in front of the one that has them."""
import itertools, re

from text import ATTACHED, LABEL, NAME, closing, functions, parted

FLAGS = r"(?:(?:inbounds|nusw|nuw|nsw|exact|disjoint) |inrange\([^)]*\) )*"
ANY = re.compile(rf"\b(add|sub|mul|shl|lshr|ashr|and|or|xor|trunc|zext|sext|bitcast|icmp \w+|select|ptrtoint|inttoptr|getelementptr) ({FLAGS})\(")


def left_out(text):
    """The first constant expression of an instruction that is left out: where it begins and ends."""
    for it in ANY.finditer(text):
        end = closing(text, it.end() - 1)
        inside = text[it.end() : end]
        if it[1] == "ptrtoint":
            # The address may stand inside another object, and no deeper.
            if left_out(inside):
                return it, end
        elif it[1] not in ("inttoptr", "getelementptr") or ANY.search(inside):
            return it, end
    return None


def hoisted(line, fresh):
    """The line, behind instructions for its constant expressions that are left out. A phi keeps them; `at_edges` is for it."""
    if "(" not in line or " phi " in line or not line.startswith("  "):
        return [line]
    indent = line[: len(line) - len(line.lstrip())]
    found = left_out(line)
    if not found:
        return [line]
    it, end = found
    name = fresh("constant")
    inside = line[it.end() : end]
    words = re.sub(r"inrange\([^)]*\) ", "", it[2])
    if it[1] not in ("getelementptr", "trunc", "zext", "sext", "bitcast", "select", "ptrtoint", "inttoptr"):
        a, b = parted(inside)
        inside = f"{a}, {b.split(' ', 1)[1]}"
    made = f"{indent}{name} = {it[1]} {words}{inside}"
    return hoisted(made, fresh) + hoisted(line[: it.start()] + name + line[end + 1 :], fresh)


def at_edges(body, fresh):
    """The lines, with the constant expressions of phis made at the ends of the blocks that they come from."""
    made, ends = {}, {}
    lines = [phi(line, made, ends, fresh) if " phi " in line and left_out(line) else line for line in body]
    if not ends:
        return body
    out, label = [], None
    for at, line in enumerate(lines):
        it = LABEL.match(line)
        if it:
            label = "%" + it[1]
        if re.match(r"  (br|switch) ", line):
            out += ends.pop(label, [])
        out.append(line)
    return out if not ends else body


def phi(line, made, ends, fresh):
    attached = ATTACHED.search(line)[1]
    it = re.match(rf"(\s+%{NAME} = phi (\w+) )(.*)$", line[: len(line) - len(attached)])
    if not it:
        return line
    ways = []
    for way in parted(it[3]):
        value, label = parted(way[1:-1].strip())
        if left_out(value):
            if (value, label) not in made:
                *before, last = hoisted(f"  phi-value {it[2]} {value}", fresh)
                made[value, label] = last.split(" ")[-1]
                ends.setdefault(label, []).extend(before)
            value = made[value, label]
        ways.append(f"[ {value}, {label} ]")
    return it[1] + ", ".join(ways) + attached


def spread(lines):
    """The lines of a module without constant expressions that are left out. After all passes, since these fold them again."""
    out, last = [], 0
    for head, end in functions(lines):
        numbers = itertools.count()
        fresh = lambda word: f"%{word}.spread.{next(numbers)}"
        out += lines[last : head + 1]
        out += [made for line in at_edges(lines[head + 1 : end], fresh) for made in hoisted(line, fresh)]
        last = end
    return out + lines[last:]

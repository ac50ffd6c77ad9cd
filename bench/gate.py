"""Processor time of each crate in a whole run of the gate from nothing; outside the gate, with nothing else running.

python3 bench/gate.py FOLDER [CRATE ..] runs `rt ci --anew` there, of the whole clone or of some crates and those below them, reads
every half second what each process of the prover has used, and prints the rows of the table in docs/GATE.md: how many edits a crate
has, and the times of its proof, of its tests, and of trying its edits. Behind them stand the whole, and the longest chain of crates each
of which uses the one before, by the clock: how long it is from the first process of a crate's proof to its last one's end, added up.
"""
import collections
import glob
import os
import re
import subprocess
import sys
import time

TICKS = os.sysconf("SC_CLK_TCK")
PROOF, TESTS, EDITS = range(3)


def read(path):
    """The text of a file of /proc, empty once its process has ended."""
    try:
        with open(path, "rb") as file:
            return file.read().replace(b"\0", b" ").decode(errors="replace")
    except OSError:
        return ""


def kind_of(pid, line):
    """What a process of the prover is at work on: edits are tried in folders of their own."""
    try:
        folder = os.readlink(f"/proc/{pid}/cwd")
    except OSError:
        folder = ""
    if "/rt-edit-" in folder:
        return EDITS
    return TESTS if " --test " in line else PROOF


def sample(seen, spans):
    """Notes what each process of the prover has used by now, workers of a proof too, and when each crate's proof was seen at work."""
    for pid in filter(str.isdigit, os.listdir("/proc")):
        line = read(f"/proc/{pid}/cmdline")
        name = re.search(r"/rattle (?:build|check|test) --crate-name (\S+) ", line)
        fields = read(f"/proc/{pid}/stat").rpartition(")")[2].split() if name else []
        if fields:
            _, kind, _ = seen.get((pid, fields[19]), (None, kind_of(pid, line), None))
            seen[pid, fields[19]] = name[1], kind, (int(fields[11]) + int(fields[12])) / TICKS
            if kind == PROOF:
                begun, _ = spans.get(name[1], (time.monotonic(), None))
                spans[name[1]] = begun, time.monotonic()


def chain(root, spans):
    """The longest chain of crates, by the clock, and the crates on it."""
    longest = {}
    with open(f"{root}/crates.txt", encoding="utf-8") as file:
        lines = [line for line in file if line.strip() and not line.startswith("#")]
    for name, _, uses in (line.partition(":") for line in lines):
        before = max((longest[it] for it in uses.split() if it in longest), default=(0.0, []))
        begun, ended = spans.get(name, (0.0, 0.0))
        longest[name] = before[0] + ended - begun, [*before[1], name]
    return max(longest.values())


def shown(seconds):
    minutes, rest = divmod(int(seconds), 60)
    return f"{minutes} min {rest:02} s" if minutes else f"{rest} s" if rest else ""


def main():
    gate = subprocess.Popen(["rt", "ci", *sys.argv[2:], "--anew"], cwd=sys.argv[1], stdout=sys.stderr)
    seen, spans = {}, {}
    while gate.poll() is None:
        sample(seen, spans)
        time.sleep(0.5)
    rows = collections.defaultdict(lambda: [0.0, 0.0, 0.0])
    for name, kind, used in seen.values():
        rows[name][kind] += used
    for name, row in rows.items():
        number = len(glob.glob(f"{sys.argv[1]}/crates/{name}/must-fail/*.edit"))
        print(f"| `{name}` | {number} | {' | '.join(map(shown, row))} |")
    print(f"whole: {shown(sum(map(sum, rows.values())))}", file=sys.stderr)
    length, crates = chain(sys.argv[1], spans)
    print(f"longest chain: {shown(length)}: {' '.join(crates)}", file=sys.stderr)
    return gate.returncode


if __name__ == "__main__":
    sys.exit(main())

"""Modules compiled for their targets by clang and run, where a linker and an emulator for the target are there."""
import os, shutil, subprocess

# The linker, the emulator, and the triple of the object file.
TARGETS = {
    "x86-64": (["gcc", "-no-pie"], [], "x86_64-unknown-linux-gnu"),
    "i386": (["gcc", "-m32", "-static"], [], "i386-unknown-linux-gnu"),
    "arm": (["arm-linux-gnueabihf-gcc", "-static"], ["qemu-arm"], "armv7-unknown-linux-gnueabihf"),
    "mips": (["mips-linux-gnu-gcc", "-static"], ["qemu-mips"], "mips-linux-gnu"),
}
LEVELS = ("-O0", "-O1", "-O2")
# The greatest budget that the program takes.
MOST_STEPS = 4294967296


def clang():
    """The compiler's command, or nothing."""
    return os.environ.get("CLANG") or next((it for it in ("clang-19", "clang-16", "clang") if shutil.which(it)), None)


def run(words, given=b""):
    """What a command writes, its status, and what it says."""
    it = subprocess.run([str(word) for word in words], input=given, capture_output=True)
    return it.stdout, it.returncode, it.stderr.decode(errors="replace")


def by_target(target, text, given, folder):
    """What a module writes and returns on its target, or nothing where it can't be run there."""
    linker, emulator, triple = TARGETS[target]
    if not all(shutil.which(it[0]) for it in (linker, emulator) if it):
        return None
    if run([clang(), "-w", "-O0", "-fno-pic", f"--target={triple}", "-c", text, "-o", f"{folder}/object"])[1]:
        return None
    if run([*linker, f"{folder}/object", "-o", f"{folder}/linked"])[1]:
        return None
    return run([*emulator, f"{folder}/linked"], given)[:2]


def program():
    """The program at $NATIVEOFF, or the one that was built in this repository, or nothing."""
    built = os.path.join(os.path.dirname(os.path.abspath(__file__)), "..", "..", "crates", "nativeoff", "out", "nativeoff")
    return os.environ.get("NATIVEOFF") or (built if os.access(built, os.X_OK) else None)


def by_program(text, given=b""):
    """What the program makes of a module, or nothing where there is none. A run that doesn't end by itself has its last line in
    the place of a status."""
    if not program():
        return None
    output, status, said = run([program(), "local", text, "--steps", str(MOST_STEPS)], given)
    last = (said.strip().split("\n") or [""])[-1].removeprefix("nativeoff: ")
    return output, status if last == f"exited {status}" else last

"""The commands of LLVM that make a module of C files."""
import glob, hashlib, os, re, shutil, subprocess

import constants, formats, lower, names, variadic, widths
from judge import EXTERNALS
from text import NAME

ROOT = os.path.dirname(os.path.dirname(os.path.dirname(os.path.abspath(__file__))))
TRIPLES = {"mips": "mips-unknown-linux-gnu", "arm": "armv7-unknown-linux-gnueabi", "i386": "i386-unknown-linux-gnu", "x86-64": "x86_64-unknown-linux-gnu"}
PLAIN = "-fno-vectorize -fno-slp-vectorize -fno-jump-tables -fno-builtin -fno-stack-protector".split()
# What a source asks for, to choose between plain C and what the profile leaves out.
WITHOUT = [f"-U{it}" for it in ("__SIZEOF_INT128__", "__SSE__", "__SSE2__", "__MMX__", "__ARM_NEON", "__ARM_NEON__", "__ARM_FEATURE_SIMD32", "__STDC_HOSTED__")]
ALWAYS = ["-fno-pic", "-fno-pie", "-w"]
ASKED = ["-gline-tables-only", *WITHOUT]
PASSES = "function(sroa,early-cse,simplifycfg,gvn,simplifycfg),globalopt"
TIDIED = "globaldce,strip-dead-prototypes"
KEEP = ["-internalize-public-api-list=main"]


class Failed(Exception):
    """A command refused; the text is what it said."""


class Tools:
    def __init__(self):
        self.clang = os.environ.get("CLANG") or first("clang-19", "clang-16", "clang")
        if not self.clang:
            raise FileNotFoundError("clang")
        suffix = re.search(r"clang(.*)$", os.path.basename(self.clang))[1]
        self.opt = os.environ.get("OPT") or first("opt" + suffix, f"/usr/lib/llvm{suffix}/bin/opt")
        self.link = os.environ.get("LLVM_LINK") or first("llvm-link" + suffix, f"/usr/lib/llvm{suffix}/bin/llvm-link")
        for name, it in (("opt", self.opt), ("llvm-link", self.link)):
            if not it:
                raise FileNotFoundError(f"{name} of the release of {self.clang}")


def first(*names):
    return next((it for it in names if shutil.which(it)), None)


def run(words, shown=None):
    ran = subprocess.run(words, stdin=subprocess.DEVNULL, capture_output=True, text=True, errors="replace")
    if ran.returncode:
        raise Failed(ran.stderr.strip() or f"{shown or words[0]} ended with {ran.returncode}")
    return ran.stderr


def read(file):
    return open(file, encoding="latin-1").read().split("\n")


def write(file, lines):
    with open(file, "w", encoding="latin-1") as it:
        it.write("\n".join(lines))


def cache():
    """The folder in which the compiled library is kept."""
    folder = os.path.join(os.environ.get("XDG_CACHE_HOME") or os.path.expanduser("~/.cache"), "from-c")
    os.makedirs(folder, exist_ok=True)
    return folder


def sum_of(clang):
    """A sum of all that the compiled library depends on."""
    it = hashlib.sha256(shutil.which(clang).encode())
    for folder, folders, files in sorted(os.walk(f"{ROOT}/lib")):
        folders.sort()
        for name in sorted(files):
            it.update(name.encode() + open(f"{folder}/{name}", "rb").read())
    for name in sorted(glob.glob(f"{ROOT}/tools/fromc/*.py")):
        it.update(open(name, "rb").read())
    return it.hexdigest()[:20]


def asks(lines):
    """Whether a module uses anything that it does not define, the machine's own aside."""
    declared = {it[1] for it in (re.match(rf"declare .*?@({NAME})\(", line) for line in lines) if it}
    return bool(declared - EXTERNALS - {it for it in declared if it.startswith("llvm.")}) or any(re.match(r"@.* external ", line) for line in lines)


class Build:
    """The modules of one program for one target, in a folder of its own."""

    def __init__(self, tools, target, sources, words, folder):
        self.tools, self.target, self.sources, self.words, self.folder = tools, target, sources, words, folder
        self.size = "i64" if target == "x86-64" else "i32"
        self.count, self.built = 0, None

    def file(self, name):
        self.count += 1
        return f"{self.folder}/{self.count}.{name}.ll"

    def clang(self, source, words, to, language="c"):
        base = [self.tools.clang, f"--target={TRIPLES[self.target]}", "-S", "-emit-llvm", "-fno-discard-value-names", *ALWAYS, "-o", to]
        if language == "c":
            base += ["-nostdlibinc", "-isystem", f"{ROOT}/lib/include", *ASKED]
        return run([*base, "-x", language, *words, source], "clang")

    def opt(self, passes, source, *words):
        to = self.file("passes")
        run([self.tools.opt, "-S", f"-passes={passes}", *words, "-o", to, source], "opt")
        return to

    def linked(self, files, *words):
        to = self.file("linked")
        run([self.tools.link, "-S", *words, "-o", to, *files], "llvm-link")
        return to

    def compiled(self, words):
        """All sources as one module, not optimised, in which main alone is seen from outside."""
        files = []
        for source in self.sources:
            if source.endswith(".ll"):
                files.append(source)
                continue
            files.append(self.file(os.path.basename(source)))
            self.compile(source, words, files[-1])
        whole = self.linked(files) if len(files) > 1 else files[0]
        lines, whole = formats.rewritten(names.plain(read(whole), self.size), self.size), self.file("whole")
        lines = variadic.plain(lines, self.target, variadic.heads(read(self.library()[0])))
        write(whole, widths.kept(lines, self.target == "mips", "wide"))
        return self.opt(f"internalize,{TIDIED},function(lower-atomic)", whole, *KEEP)

    def compile(self, source, words, to):
        """Old C is tried where a source is refused and its words name no standard."""
        asked = [*words, *self.words]
        if any(it.startswith("-std=") for it in asked):
            self.clang(source, asked, to)
            return
        try:
            self.clang(source, ["-std=gnu17", *asked], to)
        except Failed as why:
            try:
                self.clang(source, ["-std=gnu89", *asked], to)
            except Failed:
                raise Failed(f"{source} for {self.target} is not compiled:\n{why}") from None

    def library(self):
        """The C library and what intrinsics become. They are kept from run to run under the sum of their sources."""
        if self.built:
            return self.built
        kept = f"{cache()}/{self.target}-{sum_of(self.tools.clang)}"
        self.built = f"{kept}.library.ll", f"{kept}.runtime.ll"
        if not all(map(os.path.exists, self.built)):
            library, runtime = self.file("library"), self.file("runtime")
            words = ["-std=gnu17", *PLAIN, "-g0", "-Xclang", "-disable-llvm-passes"]
            self.clang(f"{ROOT}/lib/src/all.c", ["-Os", *words], library)
            self.clang(f"{ROOT}/lib/runtime/intrinsics.c", ["-O1", *words], runtime)
            write(library, variadic.plain(read(library), self.target, {}))
            self.clang(library, ["-Os", *PLAIN], self.file("optimised"), "ir")
            shutil.move(f"{self.folder}/{self.count}.optimised.ll", self.built[0])
            shutil.move(self.opt("function(sroa,early-cse,simplifycfg)", runtime), self.built[1])
        return self.built

    def finished(self, text, optimised):
        """The text with the library, without intrinsics that are left out."""
        library, runtime = self.library()
        if asks(read(text)):
            text = self.linked([text, library], "-only-needed")
        lines = read(text)
        if lower.is_sized(lines) or lower.has_exits(lines):
            lines = lower.sized(lines, self.size) if lower.is_sized(lines) else lines
            text = self.file("rewritten")
            write(text, lower.ended(lines) if lower.has_exits(lines) else lines)
            text = self.linked([text, library], "-only-needed")
        lines = widths.kept(read(text), self.target == "mips", "wider")
        lines, text = lower.lowered(lines, self.size), self.file("lowered")
        write(text, lines)
        if any("@__lower_" in it for it in lines):
            text = self.linked([text, runtime], "-only-needed")
        passes = f"internalize,always-inline,{TIDIED}"
        if optimised:
            passes += ",function(early-cse,simplifycfg)"
        text = self.opt(passes, text, *KEEP)
        write(text, constants.spread(read(text)))
        return text

    def at_level(self, level, plain):
        """The module at a level of clang, with its debug lines."""
        words = [level, *(PLAIN if plain else [])]
        if level == "-O0":
            return self.finished(self.compiled(words), False)
        whole = self.compiled([*words, "-Xclang", "-disable-llvm-passes"])
        to = self.file("optimised")
        self.clang(whole, words, to, "ir")
        return self.finished(to, True)

    def by_passes(self):
        """The module after passes that keep to plain instructions."""
        whole = self.compiled(["-O1", *PLAIN, "-Xclang", "-disable-llvm-passes"])
        return self.finished(self.opt(PASSES, whole), True)

    def stripped(self, text, names):
        """Without debug information and names of this folder, and where names is false with numbers in place of names."""
        to, last = self.file("stripped"), self.file("text")
        run([self.tools.opt, *(["-S"] if names else []), "-passes=verify", "-strip-debug", "-o", to, text], "opt")
        if not names:
            run([self.tools.opt, "-S", "-passes=verify", "-discard-value-names", "-o", last, to], "opt")
            to = last
        title = f'source_filename = "{os.path.basename(self.sources[0])}"'
        write(last, [title if it.startswith("source_filename") else it for it in read(to) if not it.startswith("; ModuleID")])
        return last

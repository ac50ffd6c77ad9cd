#!/usr/bin/env python3
"""all.py [--keep FOLDER] [--targets T,..] [--levels L,..] [NAME..]

Fetches the sources of well-known C libraries from Debian's archive, builds each with the driver beside this file for all targets
at three levels, and says which modules are in the text profile. A package or a command that is missing is named, and the rest goes
on. What is fetched lies in a folder of its own, or in that of --keep, and is used again from there. Outside the gate.

Where the module for x86-64 is in the profile, it is compiled for this machine and run, and run by the program (at $NATIVEOFF, or
built here) where that does whole modules; the same C without from-c has to write the same.
"""
import glob, os, shutil, subprocess, sys, tempfile

HERE = os.path.dirname(os.path.abspath(__file__))
FROM_C = os.path.join(HERE, "..", "from-c")
sys.dont_write_bytecode = True
sys.path.insert(0, os.path.join(HERE, "..", "..", "tools", "fromc"))
from native import by_program

TARGETS, LEVELS = ("mips", "arm", "i386", "x86-64"), ("-O0", "-O1", "-O2")
ARCHIVE = "deb-src [signed-by=/usr/share/keyrings/debian-archive-keyring.gpg] http://deb.debian.org/debian bookworm main\n"
# Each package: its sources, and words for clang; FOLDER is the package's.
PACKAGES = {
    "zlib": ("adler32.c crc32.c deflate.c trees.c inflate.c inftrees.c inffast.c zutil.c compress.c uncompr.c", "-IFOLDER"),
    "lz4": ("lib/lz4.c lib/lz4hc.c", "-IFOLDER/lib"),
    "bzip2": ("blocksort.c huffman.c crctable.c randtable.c compress.c decompress.c bzlib.c", "-IFOLDER -DBZ_NO_STDIO"),
    "xxhash": ("xxhash.c", "-IFOLDER"),
    "libtommath": ("bn_*.c", "-IFOLDER -DMP_32BIT -DMP_NO_FILE -DBN_MP_SET_DOUBLE_C=0 -DMP_NO_DEV_URANDOM"),
    "lzo2": ("minilzo/minilzo.c", "-IFOLDER/minilzo -IFOLDER/include -IFOLDER/include/lzo"),
    "liblzf": ("lzf_c.c lzf_d.c", "-IFOLDER"),
    "http-parser": ("http_parser.c", "-IFOLDER"),
    "libmd": ("src/md5.c src/sha1.c src/sha2.c src/rmd160.c", "-IFOLDER/include -IFOLDER/src"),
    "brotli": ("c/common/*.c c/dec/*.c", "-IFOLDER/c/include -U__ARM_ARCH"),
    "libyaml": ("src/api.c src/reader.c src/scanner.c src/parser.c", '-IFOLDER/include -IFOLDER/src -DYAML_VERSION_MAJOR=0 -DYAML_VERSION_MINOR=2 -DYAML_VERSION_PATCH=5 -DYAML_VERSION_STRING="0.2.5"'),
    "expat": ("lib/xmlparse.c lib/xmltok.c lib/xmlrole.c", "-IFOLDER/lib -DHAVE_MEMMOVE -DXML_POOR_ENTROPY -DXML_GE=1 -DXML_DTD -DXML_NS -DXML_CONTEXT_BYTES=1024 -DBYTEORDER=1234"),
}
# Sources that need what the profile has not, whatever a driver reaches of them.
APART = {"libtommath": ("set_double", "fread", "fwrite", "rand_platform")}
# A library of which the reached part computes with fractions: its refusals are shown and not counted.
ASIDE = {"expat": "floating point"}


def fetch(folder, name):
    """The package's folder, or None where it can't be had."""
    to = f"{folder}/{name}"
    if os.path.isdir(to):
        return to
    lists = f"{folder}/lists"
    words = [f"-oDir::Etc::sourcelist={folder}/archive.list", "-oDir::Etc::sourceparts=/dev/null", f"-oDir::State::lists={lists}", "-oDir::Cache::pkgcache=", "-oDir::Cache::srcpkgcache="]
    if not os.path.isdir(lists):
        os.makedirs(f"{lists}/partial")
        with open(f"{folder}/archive.list", "w") as it:
            it.write(ARCHIVE)
        subprocess.run(["apt-get", "-q", *words, "update"], stdout=subprocess.DEVNULL, stderr=subprocess.DEVNULL)
    fetched = tempfile.mkdtemp(dir=folder)
    subprocess.run(["apt-get", "-q", *words, "source", "--download-only", name], cwd=fetched, stdout=subprocess.DEVNULL, stderr=subprocess.DEVNULL)
    archives = [it for it in glob.glob(f"{fetched}/*.orig.tar.*") if not it.endswith(".asc")]
    if len(archives) != 1:
        return None
    os.makedirs(to)
    subprocess.run(["tar", "xf", archives[0], "-C", to, "--strip-components=1"], check=True)
    return to


def sources_of(name, folder):
    apart = APART.get(name, ())
    files = [it for word in PACKAGES[name][0].split() for it in sorted(glob.glob(f"{folder}/{word}"))]
    return [f"{HERE}/{name}.c"] + [it for it in files if not any(word in it for word in apart)]


def native(words, to):
    """What a program of this machine says."""
    made = subprocess.run([*words, "-o", to], stdin=subprocess.DEVNULL, stdout=subprocess.DEVNULL, stderr=subprocess.PIPE, text=True)
    if made.returncode:
        return "not built: " + made.stderr.strip().split("\n")[0]
    ran = subprocess.run([to], stdin=subprocess.DEVNULL, capture_output=True)
    return ran.stdout, ran.returncode


def tried(name, folder, room, targets, levels):
    """How many modules are in the profile, and lines about the others."""
    sources = sources_of(name, folder)
    words = ["-I" + HERE + "/headers", *PACKAGES[name][1].replace("FOLDER", folder).split()]
    clang = os.environ.get("CLANG") or next(it for it in ("clang-19", "clang-16", "clang") if shutil.which(it))
    wanted = native([clang, "-w", "-O1", *words, *sources], f"{room}/native")
    inside, said = 0, []
    for target in targets:
        for level in levels:
            out = f"{room}/{name}.{target}{level}.ll"
            made = subprocess.run([FROM_C, *sources, target, out, "--", *words], stdin=subprocess.DEVNULL, stdout=subprocess.DEVNULL, stderr=subprocess.PIPE, text=True, env={**os.environ, "LEVELS": level})
            if made.returncode:
                said.append(f"{name} for {target} at {level}:\n" + "\n".join(made.stderr.split("\n")[1:9]))
                continue
            inside += 1
            if target == "x86-64":
                for found in (native([clang, "-w", "-O1", "-x", "ir", out], f"{room}/ours"), by_program(out)):
                    if found is not None and found != wanted:
                        said.append(f"{name} for {target} at {level} DIFFERS: {found} instead of {wanted}")
    return inside, said


def main():
    words = sys.argv[1:]
    keep, targets, levels = None, TARGETS, LEVELS
    while words and words[0].startswith("--"):
        if words[0] == "--keep":
            keep = os.path.abspath(words[1])
            os.makedirs(keep, exist_ok=True)
        elif words[0] == "--targets":
            targets = words[1].split(",")
        else:
            levels = words[1].split(",")
        words = words[2:]
    each = len(targets) * len(levels)
    for needed in ("apt-get", "tar"):
        if not shutil.which(needed):
            print(f"fetched: skipped, since {needed} is missing")
            return 0
    if not any(shutil.which(it) for it in ("clang-19", "clang-16", "clang")):
        print("fetched: skipped, since clang is missing")
        return 0
    folder, all_inside, all_tried, bad = keep or tempfile.mkdtemp(), 0, 0, 0
    room = tempfile.mkdtemp()
    try:
        for name in words or PACKAGES:
            at = fetch(folder, name)
            if not at:
                print(f"{name}: the package is not to be had", flush=True)
                continue
            inside, said = tried(name, at, room, targets, levels)
            print(f"{name}: {inside} of {each} modules are in the profile" + (f" (set aside: {ASIDE[name]})" if name in ASIDE else ""), *said, sep="\n", flush=True)
            bad += sum("DIFFERS" in it for it in said)
            if name not in ASIDE:
                all_inside, all_tried = all_inside + inside, all_tried + each
    finally:
        shutil.rmtree(room)
        if not keep:
            shutil.rmtree(folder)
    if all_tried:
        print(f"fetched: {all_inside} of {all_tried} modules are in the profile, {100 * all_inside // all_tried} per cent; {bad} differ from native runs")
    return 1 if bad else 0


sys.exit(main())

#!/usr/bin/env python3
"""Prints functions of LLVM's text, each of which is one intrinsic at one width, for intrinsics.c."""
WIDTHS = (8, 16, 32, 64)
ONE = {"ctpop": "", "bitreverse": "", "ctlz": ", i1 false", "cttz": ", i1 false", "abs": ", i1 false"}
TWO = ("sadd.sat", "uadd.sat", "ssub.sat", "usub.sat", "sshl.sat", "ushl.sat")
PAIRS = ("sadd", "uadd", "ssub", "usub", "smul", "umul")
made, declared = [], set()


def function(kind, name, count, *lines):
    arguments = ", ".join(f"{kind} zeroext %{it}" for it in "abc"[:count])
    made.append(f"define zeroext {kind} @{name}_{kind}({arguments}) noinline {{\n  " + "\n  ".join(lines) + "\n}\n")


def call(kind, name, count, more="", gives=None):
    values = ", ".join(f"{kind} %{it}" for it in "abc"[:count]) + more
    types = ", ".join([kind] * count + ["i1"] * (more != ""))
    declared.add(f"declare {gives or kind} @llvm.{name}.{kind}({types})")
    return f"call {gives or kind} @llvm.{name}.{kind}({values})"


for width in WIDTHS:
    kind = f"i{width}"
    for name, more in ONE.items():
        function(kind, name, 1, "%r = " + call(kind, name, 1, more), f"ret {kind} %r")
    for name in TWO:
        function(kind, name.replace(".", "_"), 2, "%r = " + call(kind, name, 2), f"ret {kind} %r")
    for name in ("fshl", "fshr"):
        function(kind, name, 3, "%r = " + call(kind, name, 3), f"ret {kind} %r")
    for name in PAIRS:
        pair = "%p = " + call(kind, name + ".with.overflow", 2, "", f"{{ {kind}, i1 }}")
        function(kind, name + "_value", 2, pair, f"%r = extractvalue {{ {kind}, i1 }} %p, 0", f"ret {kind} %r")
        function(kind, name + "_over", 2, pair, f"%o = extractvalue {{ {kind}, i1 }} %p, 1", f"%r = zext i1 %o to {kind}", f"ret {kind} %r")
print("\n".join(made) + "\n" + "\n".join(sorted(declared)))

#!/usr/bin/env python3
"""Makes a module of LLVM for wasm64 of the one that rattle makes for x86-64. No proof covers it; web/build calls it.

    web/module/retarget.py GIVEN.ll MADE.ll

Pointers have 64 bits on both, so the code stays. Another target, its layout and its features are named; the functions of the
heap, which answer a pair there, call those of heap.c; and the one instruction that only x86-64 has is written out.
"""
import argparse
import pathlib
import re
import sys

TRIPLE = "wasm64-unknown-unknown"
LAYOUT = "e-m:e-p:64:64-p10:8:8-p20:8:8-i64:64-i128:128-n32:64-S128-ni:1:10:20"
PROCESSOR = r'"(target-cpu|target-features|tune-cpu|probe-stack|stack-probe-size|frame-pointer)"="[^"]*" ?'
HEAP = r"(?m)^declare (?:[a-z_]+ )*([{][^}]*[}]) @(rattle_alloc|rattle_realloc)\(([^)]*)\).*$"
# the bytes of a vector that a vector of places picks, 0 where a place's high bit is set
PICKED = "@llvm.x86.ssse3.pshuf.b.128"
FENCE = r"= (?:tail |notail )?call [a-z ]*double @llvm.arithmetic.fence.f64\(double (?:noundef )?([^)]*)\).*"
# what no request for memory of no bytes is answered with: an address that is not null, and aligned
NOWHERE = 16


def heap_function(kind, name, parameters, declared):
    """A function of the heap that answers whether there was memory, and where, by one of heap.c that answers an address or null."""
    types = [re.match(r"\s*(\S+)", it)[1] for it in parameters.split(",")]
    given = ", ".join(f"{it} %a{number}" for number, it in enumerate(types))
    flag, place = re.match(r"[{] *(\S+), *(\S+) *[}]", kind).groups()
    plain = name.replace("rattle_", "heap_")
    declared.append(f"declare ptr @{plain}({', '.join(types)})")
    body = [
        f"%p = call ptr @{plain}({given})",
        "%has = icmp ne ptr %p, null",
        f"%q = select i1 %has, ptr %p, ptr inttoptr (i64 {NOWHERE} to ptr)",
        "%ok = or i1 %has, false" if flag == "i1" else f"%ok = zext i1 %has to {flag}",
        f"%s = insertvalue {kind} undef, {flag} %ok, 0",
    ]
    if place == "ptr":
        body += [f"%t = insertvalue {kind} %s, ptr %q, 1"]
    else:
        body += [f"%i = ptrtoint ptr %q to {place}", f"%t = insertvalue {kind} %s, {place} %i, 1"]
    lines = "\n  ".join([*body, f"ret {kind} %t"])
    return f"define internal {kind} @{name}({given}) {{\n  {lines}\n}}"


def picked_bytes():
    """The function that is called in place of the instruction of x86-64."""
    lanes, last = [], "zeroinitializer"
    for lane in range(16):
        lanes += [
            f"%i{lane} = extractelement <16 x i8> %p, i64 {lane}",
            f"%l{lane} = and i8 %i{lane}, 15",
            f"%x{lane} = extractelement <16 x i8> %v, i8 %l{lane}",
            f"%n{lane} = icmp slt i8 %i{lane}, 0",
            f"%y{lane} = select i1 %n{lane}, i8 0, i8 %x{lane}",
            f"%r{lane} = insertelement <16 x i8> {last}, i8 %y{lane}, i64 {lane}",
        ]
        last = f"%r{lane}"
    lines = "\n  ".join([*lanes, f"ret <16 x i8> {last}"])
    return f"define internal <16 x i8> @picked_bytes(<16 x i8> %v, <16 x i8> %p) {{\n  {lines}\n}}"


def retargeted(text):
    added = []
    text = re.sub(r"(?m)^target triple = .*", f'target triple = "{TRIPLE}"', text)
    text = re.sub(r"(?m)^target datalayout = .*", f'target datalayout = "{LAYOUT}"', text)
    text = re.sub(PROCESSOR, "", text)
    text = re.sub(HEAP, lambda it: heap_function(it[1], it[2], it[3], added), text)
    if PICKED in text:
        text = re.sub(rf"(?m)^declare .*{re.escape(PICKED)}\(.*$", "", text).replace(PICKED, "@picked_bytes")
        added.append(picked_bytes())
    text = re.sub(FENCE, r"= freeze double \1", text)
    left = sorted(set(re.findall(r"@llvm\.(?:x86|aarch64)[\w.]*", text)))
    if left:
        sys.exit(f"retarget.py: only one processor has {', '.join(left)}")
    return text + "\n" + "\n".join(added) + "\n"


def main():
    words = argparse.ArgumentParser(prog="web/module/retarget.py", description=__doc__, formatter_class=argparse.RawDescriptionHelpFormatter)
    words.add_argument("given", type=pathlib.Path)
    words.add_argument("made", type=pathlib.Path)
    said = words.parse_args()
    said.made.write_text(retargeted(said.given.read_text()))
    return 0


if __name__ == "__main__":
    sys.exit(main())

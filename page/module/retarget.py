"""Turns the LLVM module that the kit made of the proved functions for x86-64 into one for wasm64.

It changes the two lines that name the target, drops the attributes that are x86's, and gives the three functions of the
heap that the kit declares in C bodies over runtime.c. Sizes, alignments and byte order are the same on both. It stops at
what it does not know: any other function that is declared and is not LLVM's own, any intrinsic of x86, any assembly but
the empty one, which is no instruction and only holds accesses of memory in their order (an `Arc` has it)."""
import argparse
import os
import re
import sys

LAYOUT = "e-m:e-p:64:64-p10:8:8-p20:8:8-i64:64-i128:128-n32:64-S128-ni:1:10:20"
OF_X86 = re.compile(r' "(probe-stack|stack-probe-size|target-cpu|target-features|frame-pointer)"="[^"]*"')
HEAP = """
declare ptr @heap_alloc(i64)
declare ptr @heap_realloc(ptr, i64)
declare void @heap_free(ptr)
@heap_none = internal constant [16 x i8] zeroinitializer, align 16

define internal { i64, i64 } @heap_tried(ptr %p) alwaysinline {
  %ok = icmp ne ptr %p, null
  %q = select i1 %ok, ptr %p, ptr @heap_none
  %n = ptrtoint ptr %q to i64
  %flag = zext i1 %ok to i64
  %a = insertvalue { i64, i64 } undef, i64 %flag, 0
  %b = insertvalue { i64, i64 } %a, i64 %n, 1
  ret { i64, i64 } %b
}
define internal { i64, i64 } @rattle_alloc(i64 %n, i64 %a) alwaysinline {
  %p = call ptr @heap_alloc(i64 %n)
  %r = call { i64, i64 } @heap_tried(ptr %p)
  ret { i64, i64 } %r
}
define internal { i64, i64 } @rattle_realloc(ptr %p, i64 %kept, i64 %n, i64 %a) alwaysinline {
  %q = call ptr @heap_realloc(ptr %p, i64 %n)
  %r = call { i64, i64 } @heap_tried(ptr %q)
  ret { i64, i64 } %r
}
define internal void @rattle_dealloc(ptr %p) alwaysinline {
  call void @heap_free(ptr %p)
  ret void
}
"""
ORDER = 'call void asm sideeffect "", "~{memory}"()'
OURS = {"rattle_alloc", "rattle_realloc", "rattle_dealloc"}


def retargeted(lines):
    """The lines for wasm64, without the declarations of the heap."""
    seen = set()
    for line in lines:
        if line.startswith("target datalayout"):
            line = f'target datalayout = "{LAYOUT}"\n'
        elif line.startswith("target triple"):
            line = 'target triple = "wasm64-unknown-unknown"\n'
        elif line.startswith("attributes "):
            line = OF_X86.sub("", line)
        elif line.startswith("declare "):
            name = re.search(r"@([\w.]+)", line).group(1)
            if name in OURS:
                seen.add(name)
                continue
            if not name.startswith("llvm.") or ".x86." in name:
                sys.exit(f"retarget: what is {name}?")
        elif re.search(r"\basm\b (sideeffect|\")", line) and ORDER not in line:
            sys.exit(f"retarget: assembly: {line}")
        yield line
    if seen != OURS:
        sys.exit(f"retarget: no {OURS - seen}")


def main():
    words = argparse.ArgumentParser(prog="retarget.py", description=__doc__)
    words.add_argument("source", metavar="FROM.ll")
    words.add_argument("target", metavar="TO.ll")
    given = words.parse_args()
    if not os.path.isfile(given.source):
        words.error(f"{given.source} is no file")
    with open(given.source, encoding="utf-8") as it:
        text = "".join(retargeted(it))
    with open(given.target, "w", encoding="utf-8") as it:
        it.write(text + HEAP)


main()

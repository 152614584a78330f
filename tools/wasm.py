"""Compiles a static library of this repository to WebAssembly with 64-bit addresses.

The kit has such a target, but compiles nothing for it that reaches its heap. So the module that it
makes for x86-64 is taken, as tools/compile.py does. It has no assembler and nothing of x86-64 but
its triple, its layout of data and two attributes, which are replaced here; pointers have 64 bits on
both. The kit's clang makes code of it, and the kit's ld.lld links that with a heap in C. No proof
covers these steps.
"""

from __future__ import annotations

import re
from pathlib import Path
from typing import Iterable, Iterator

from compile import NoModule, Run, as_text, check_exports, module_of, with_exports, without_checks

LAYOUT = "e-m:e-p:64:64-p10:8:8-p20:8:8-i64:64-i128:128-n32:64-S128-ni:1:10:20"
TRIPLE = "wasm64-unknown-unknown"
OF_X86 = re.compile(r' "(probe-stack|stack-probe-size|target-cpu|target-features)"="[^"]*"')
BOUND = re.compile(r"asm sideeffect|@llvm\.(x86|aarch64)")
OPTIONS = f"--target={TRIPLE} -mcpu=lime1 -msimd128 -O3 --no-default-config".split()
OPTIONS += "-ffunction-sections -mllvm -trap-unreachable".split()
# A stack of 4 MB lies lowest, so that one that is too small traps. Memory has at most 16 GB.
LINKING = "-mwasm64 --no-entry --gc-sections -z stack-size=4194304 --stack-first".split()
LINKING += ["--max-memory=17179869184", "--strip-all"]


def retargeted(lines: Iterable[str]) -> Iterator[str]:
    """The lines of a module, for WebAssembly in place of x86-64."""
    for line in lines:
        if BOUND.search(line):
            raise NoModule("the module is bound to x86-64")
        if line.startswith("target datalayout"):
            yield f'target datalayout = "{LAYOUT}"\n'
        elif line.startswith("target triple"):
            yield f'target triple = "{TRIPLE}"\n'
        else:
            yield OF_X86.sub("", line) if line.startswith("attributes") else line


def compile_wasm(kit: Path, folder: Path, heap: Path, work: Path, run: Run) -> Path:
    """Makes a module that exports what a crate exports, and the page_* of its heap."""
    clang, made = f"{kit}/toolchain/bin/clang", work / f"{folder.name}.wasm"
    module = module_of(kit, folder, ["--test", "src/lib.rt"], work, run)
    plain, objects = work / "plain.ll", [work / "code.o", work / "heap.o"]
    with open(as_text(kit, module, run)) as before, open(plain, "w") as after:
        lines = with_exports(without_checks(before), folder.name, "page")
        after.writelines(retargeted(lines))
    names = check_exports(folder, plain.read_text())
    names += re.findall(r"^\w+ (page_\w+)\(", heap.read_text(), re.M)
    run([clang, *OPTIONS, "-c", "-x", "ir", str(plain), "-o", str(objects[0])], work)
    run([clang, *OPTIONS, "-ffreestanding", "-c", str(heap), "-o", str(objects[1])], work)
    linker = work / "wasm-ld"  # the name by which ld.lld knows what to make
    linker.symlink_to(kit / "toolchain" / "bin" / "ld.lld")
    words = [*LINKING, *(f"--export={it}" for it in names), *map(str, objects), "-o", str(made)]
    status, output = run([str(linker), *words], work)
    if status or not made.is_file():
        raise NoModule(f"no WebAssembly is made of {folder.name}: {output[:200]}")
    return made

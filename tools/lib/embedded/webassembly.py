"""The module that LLVM gets of the library, compiled for WebAssembly.

The kit builds no library for WebAssembly that takes memory (docs/DECISIONS.md), so the module of the one for x86-64 is
retargeted. Both have pointers of 64 bits and one byte order, and the layouts of all types stand in the module: only
what is exported and imported gets its names, and what x86-64 alone has goes."""
import os
import re

from lib import kit
from lib.embedded.making import EXPORTS, MODULE, as_text, run
from lib.unproved.compiling import Failed

LAYOUT = "e-m:e-p:64:64-p10:8:8-p20:8:8-i64:64-i128:128-n32:64-S128-ni:1:10:20"  # the kit's own for wasm64
TRIPLE = "wasm64-unknown-unknown"
DECLARED = re.compile(
    r'^(declare [^\n@]*@"?([\w.$]+)"?\([^\n]*\)(?: (?:local_)?unnamed_addr)?)((?: #\d+)?)$', re.MULTILINE
)
OF_X64 = re.compile(r' ?"(?:target-cpu|target-features|tune-cpu|probe-stack|stack-probe-size)"="[^"]*"')
ONLY_X64 = re.compile(r"llvm\.x86\.[\w.]+")
# what the compiler or the linker defines
DEFINED = {"memcpy", "memmove", "memset", "memcmp"}
# how the kit compiles for wasm64, but small, since the page has the module in it
FLAGS = [
    f"--target={TRIPLE}", "-mcpu=lime1", "-mllvm", "-expand-div-rem-bits=64", "-mllvm", "-expand-fp-convert-bits=64",
    "-mllvm", "-trap-unreachable", "-ffunction-sections", "-fdata-sections", "-Oz", "-Xclang", "-fmerge-functions",
]
# to a memory of 32 bits, which every browser has
LOWER = [
    "wasm-opt", "--enable-memory64", "--enable-bulk-memory", "--enable-sign-ext",
    "--enable-nontrapping-float-to-int", "--enable-mutable-globals", "--enable-multivalue", "--memory64-lowering",
    "--strip-debug",
]


def once(pattern: str, by: str, text: str) -> str:
    text, count = re.subn(pattern, by, text, flags=re.MULTILINE)
    if count != 1:
        raise Failed(f"the module has {pattern} {count} times")
    return text


def imported(found: re.Match[str]) -> str:
    declared, name, after = found.groups()
    if name.startswith("llvm.") or name in DEFINED:
        return found[0]
    return f'{declared} "wasm-import-module"="env" "wasm-import-name"="{name}"{after}'


def retargeted(text: str, export: str) -> str:
    """A module for x86-64, as text, for wasm64."""
    text = once(r"^target datalayout = .*$", f'target datalayout = "{LAYOUT}"', text)
    text = once(r"^target triple = .*$", f'target triple = "{TRIPLE}"', text)
    text = once(rf"^(define [^\n]*@{export}\([^\n{{}}]*?) (#\d+)", rf'\1 "wasm-export-name"="{export}" \2', text)
    text = OF_X64.sub("", DECLARED.sub(imported, text))
    if left := sorted(set(ONLY_X64.findall(text))):
        raise Failed(f"the module has instructions that x86-64 alone has: {left}")
    return text


def make(room: str) -> str:
    """Compiles the module that was kept beside the library; returns the file."""
    tools = f"{kit.rtlib().KIT}/toolchain/bin"
    text = retargeted(as_text(MODULE, "x64.ll", room), EXPORTS[0])
    with open(f"{room}/wasm64.ll", "w", encoding="utf-8") as file:
        file.write(text)
    run([f"{tools}/clang", *FLAGS, "-c", "-x", "ir", "wasm64.ll", "-o", "module.o"], room)
    run([f"{tools}/llvm-ar", "rcs", "libmodule.a", "module.o"], room)
    link = [f"{kit.rtlib().KIT}/bin/rattle-link", "--target", TRIPLE, "--toolchain", os.path.dirname(tools)]
    run([*link, "-o", "module64.wasm", "libmodule.a"], room)
    run([*LOWER, "module64.wasm", "-o", "page.wasm"], room)
    return f"{room}/page.wasm"

"""Makes the WebAssembly module of the code of the calls for other languages.

What the toolchain passes to its compiler for x86-64, LLVM's intermediate representation, is compiled once more, for
WebAssembly with a memory of 64 bits, and linked, by the toolchain. Then memory32.py lowers it to a memory of 32 bits. Its
heap is imported: bindings/javascript/heap.js.
"""

import os
import re
import tempfile
from pathlib import Path

from support import built
from support.command import Failed, content, output, read, write
from support.library.c_library import CALLS
from support.toolchain import AS_TEXT, kit
from support.web import memory32

NAME = "prettyless.wasm"
HEAP = ("rattle_alloc", "rattle_realloc", "rattle_dealloc")
TARGET = "wasm64-unknown-unknown"
# What the toolchain gives clang for WebAssembly, but for `-Wno-override-module`: the code names no target.
FLAGS = """-mcpu=lime1 -mllvm -expand-div-rem-bits=64 -mllvm -expand-fp-convert-bits=64 -ffunction-sections
    -fdata-sections -mllvm -trap-unreachable -mllvm -no-x86-call-frame-opt -mllvm -disable-machine-licm
    -mllvm -disable-postra-machine-licm -mllvm -sink-common-insts=false --no-default-config -no-canonical-prefixes
    -fintegrated-cc1 -fno-crash-diagnostics -Werror -Wno-override-module -O3 -c""".split()
# What the processor is there, and which calls of the C library it lacks.
PROCESSOR = '"target-cpu"="lime1" "no-builtin-bcmp" "no-builtin-memcmp" "no-builtin-strlen"'


def replaced(pattern, by, code):
    """The code with the one line that a pattern finds replaced."""
    code, found = re.subn(pattern, by, code, flags=re.M)
    if found != 1:
        raise Failed(f"{found} lines of the library's code are `{pattern}`, where one is wanted")
    return code


def for_wasm(code):
    """The same code for WebAssembly: the calls are exported, and those of the heap are imported."""
    code = re.sub(r"^target .*\n", "", code, flags=re.M)
    code = re.sub(r'"target-cpu"="[^"]*"', PROCESSOR, code)
    for call in CALLS:
        exported = rf'\1 "wasm-export-name"="{call}" \2'
        code = replaced(rf"^(define .*@{call}\(.*\)) (#\d+ {{)$", exported, code)
    for call in HEAP:
        imported = rf'\1 "wasm-import-module"="heap" "wasm-import-name"="{call}"'
        code = replaced(rf"^(declare .*@{call}\(.*\).*)$", imported, code)
    return code


def linked(code, folder):
    """The path of a module with a memory of 64 bits, which the code is compiled and linked to."""
    at = kit()
    compiled, archive, module = (f"{folder}/web.{it}" for it in ("o", "a", "wasm"))
    source = write(f"{folder}/web.ll", code)
    output([f"{at}/toolchain/bin/clang", f"--target={TARGET}", *FLAGS, "-x", "ir", source, "-o", compiled])
    output([f"{at}/toolchain/bin/llvm-ar", "rcsD", "--format=gnu", archive, compiled])
    link = [f"{at}/bin/rattle-link", "--target", TARGET, "--toolchain", f"{at}/toolchain"]
    said = output([*link, "-o", module, archive])
    imported = set(re.search(r"imports=(\S*)", said)[1].split(","))
    if imported != {f"heap.{call}" for call in HEAP}:
        raise Failed(f"the module imports {' '.join(sorted(imported))}")
    return module


def build(to):
    with tempfile.TemporaryDirectory() as folder:
        text = f"{folder}/library.ll"
        output([f"{kit()}/toolchain/bin/clang", "-x", "ir", built.code(), *AS_TEXT, "-o", text])
        os.makedirs(os.path.dirname(to), exist_ok=True)
        Path(to).write_bytes(memory32.lowered(content(linked(for_wasm(read(text)), folder))))

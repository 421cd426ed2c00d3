"""Makes the WebAssembly module. The LLVM module of the proved crate is compiled for wasm64, with the flags and
attributes that `rattle build` has for that target, linked with a heap, and lowered to addresses of 32 bits. Nothing
proves this."""

from __future__ import annotations

import re
from collections.abc import Iterator
from pathlib import Path

from .library import EMBED, MODULE, OUT, called, kit

HEAP = EMBED / "wasm_heap.c"
MADE = OUT / "wasm/fc.wasm"
LOWER = "wasm-opt"
STACK = 8 << 20
WASM = "wasm64-unknown-unknown"
LAYOUT = "e-m:e-p:64:64-p10:8:8-p20:8:8-i64:64-i128:128-n32:64-S128-ni:1:10:20"
PROCESSOR = '"target-cpu"="lime1"'
# For size: the module is a third smaller than by -O3, about as fast, and its functions take less of an engine's stack.
CLANG = ("--no-default-config", "-no-canonical-prefixes", "-fno-crash-diagnostics", "-Os")
OF_RATTLE = (
    "-expand-div-rem-bits=64", "-expand-fp-convert-bits=64", "-trap-unreachable", "-no-x86-call-frame-opt",
    "-disable-machine-licm", "-disable-postra-machine-licm", "-sink-common-insts=false",
)  # fmt: skip
FEATURES = ("memory64", "bulk-memory", "sign-ext", "nontrapping-float-to-int", "mutable-globals", "multivalue")
# What differs between the two targets, which have one layout of pointers: the processor, no probes of the stack, no
# calls of C's memcmp and strlen, the names of the exports, and the one instruction of x86's that rattle calls by name.
DIFFERENCES = (
    (r"^target triple = .*", f'target triple = "{WASM}"'),
    (r"^target datalayout = .*", f'target datalayout = "{LAYOUT}"'),
    (r' "(?:probe-stack|stack-probe-size)"="[^"]*"', ""),
    (r'"target-cpu"="[^"]*"', f'{PROCESSOR} "no-builtin-bcmp" "no-builtin-memcmp" "no-builtin-strlen"'),
    (r"^(define (?!internal)[^@\n]*@)(\w+)(\(.*\)) (#\d+) \{$", r'\1\2\3 \4 "wasm-export-name"="\2" {'),
    (r"^declare <16 x i8> @llvm\.x86\.ssse3\.pshuf\.b\.128.*\n", ""),
    (r"@llvm\.x86\.ssse3\.pshuf\.b\.128", "@rattle.pshufb"),
)
CUSTOM, TABLE, ELEMENTS = 0, 4, 9
HEAD = 8


def lane(number: int) -> str:
    """A lane of `pshufb`: 0 where its mask has the top bit, else the lane that the mask's low four bits name."""
    before = f"%v{number - 1}" if number else "zeroinitializer"
    return f"""\
  %m{number} = extractelement <16 x i8> %mask, i64 {number}
  %k{number} = and i8 %m{number}, 15
  %w{number} = zext i8 %k{number} to i64
  %p{number} = getelementptr i8, ptr %row, i64 %w{number}
  %l{number} = load i8, ptr %p{number}
  %t{number} = icmp slt i8 %m{number}, 0
  %b{number} = select i1 %t{number}, i8 0, i8 %l{number}
  %v{number} = insertelement <16 x i8> {before}, i8 %b{number}, i64 {number}
"""


def shuffle() -> str:
    """What `pshufb` does, in LLVM's language."""
    return f"""
define internal <16 x i8> @rattle.pshufb(<16 x i8> %of, <16 x i8> %mask) nounwind {PROCESSOR} {{
  %row = alloca [16 x i8], align 16
  store <16 x i8> %of, ptr %row, align 16
{"".join(map(lane, range(16)))}  ret <16 x i8> %v15
}}
"""


def for_wasm(text: str) -> str:
    """The text of the LLVM module, for the other target."""
    for pattern, put in DIFFERENCES:
        text = re.sub(pattern, put, text, flags=re.MULTILINE)
    return text + shuffle()


def compile_module(made: Path) -> None:
    """Compiles the module and the heap, and links them. Raises Failed."""
    room = made.parent
    clang, text, body, heap = kit() / "toolchain/bin/clang", room / "module.ll", room / "module.o", room / "heap.o"
    reads = ("-Wno-override-module", "-S", "-emit-llvm", "-Xclang", "-disable-llvm-passes", "-x", "ir")
    called([clang, "--no-default-config", *reads, MODULE, "-o", text])
    text.write_text(for_wasm(text.read_text()))
    flags = [word for flag in OF_RATTLE for word in ("-mllvm", flag)]
    target: list[str | Path] = [clang, f"--target={WASM}", "-mcpu=lime1"]
    of_heap = ("-O3", "-ffreestanding", "-fno-builtin", "-Wall", "-Wextra")
    # by their names in their folder, so that no path of this machine can stand in the module
    sections = ("-ffunction-sections", "-fdata-sections")
    called([*target, *sections, *flags, *CLANG, "-c", "-x", "ir", text.name, "-o", body.name], room)
    (room / HEAP.name).write_text(HEAP.read_text())
    called([*target, *of_heap, "-c", HEAP.name, "-o", heap.name], room)
    (room / "all.a").unlink(missing_ok=True)
    called([kit() / "toolchain/bin/llvm-ar", "qc", "all.a", body.name, heap.name], room)
    link = ("--target", WASM, "--toolchain", kit() / "toolchain", "--stack", str(STACK))
    called([kit() / "bin/rattle-link", *link, "-o", made, room / "all.a"])


def sections(module: bytes) -> Iterator[tuple[int, bytes]]:
    """The sections of a WebAssembly module: what each is, and its bytes."""
    at = HEAD
    while at < len(module):
        start, size, shift = at, 0, 0
        at += 1
        while True:
            byte = module[at]
            size |= (byte & 127) << shift
            shift, at = shift + 7, at + 1
            if byte < 128:
                break
        at += size
        yield module[start], module[start:at]


def slim(module: bytes) -> bytes:
    """The module without names of functions, and without a table in which nothing stands: its limits have 64 bits,
    which not every engine reads."""
    found = [*sections(module)]
    away = {CUSTOM} if any(kind == ELEMENTS for kind, _ in found) else {CUSTOM, TABLE}
    return module[:HEAD] + b"".join(body for kind, body in found if kind not in away)


def lower(wide: Path, made: Path) -> None:
    """Gives the module addresses of 32 bits. Raises Failed."""
    called([LOWER, "--memory64-lowering", *(f"--enable-{name}" for name in FEATURES), wide, "-o", made])


def tool() -> str:
    """What the tool that lowers says that it is. Raises Failed."""
    return called([LOWER, "--version"]).strip()


def is_made() -> bool:
    """Whether the module stands there, and nothing of which it is made is newer."""
    parts = (MODULE, HEAP, Path(__file__))
    return MADE.exists() and all(part.stat().st_mtime_ns < MADE.stat().st_mtime_ns for part in parts)


def make() -> Path:
    """Makes the module of the built library, unless it is made, and gives its file. Raises Failed."""
    if not is_made():
        MADE.parent.mkdir(exist_ok=True)
        linked, wide = MADE.with_name("linked.wasm"), MADE.with_name("wide.wasm")
        compile_module(linked)
        wide.write_bytes(slim(linked.read_bytes()))
        lower(wide, MADE)
    return MADE

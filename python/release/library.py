"""Builds `libfc`: proves its crate over the proved crates of the checkout, compiles it, and joins what belongs to it.

`rattle build` hands the compiler one LLVM module. A folder of links stands for the kit's toolchain, whose `clang` keeps
that module before it compiles it: so the WebAssembly module is made from the form of the crate that was proved.
"""

from __future__ import annotations

import os
import shutil
import subprocess
from functools import lru_cache
from pathlib import Path

from fieldc.released import sum_of_sources
from gate.places import CRATES, TOP, libraries

CRATE = "fc_library"
TARGET = "x86_64-unknown-linux-gnu"
EMBED = TOP / "embed"
HEADER = TOP / "include/fc.h"
OUT = TOP / "out/library"
ARCHIVE = OUT / "libfc_library.a"
MODULE = OUT / "toolchain/module.bc"
STATIC = OUT / "libfc.a"
SHARED = OUT / "libfc.so.1"
STAMP = OUT / "stamp"
LOG = OUT / "log"
EXPORTS = "{ global: fc_reply; fc_call; fc_call_bytes; fc_free; local: *; };\n"


class Failed(Exception):
    """Something can't be made; the text says why."""


@lru_cache(maxsize=1)
def kit() -> Path:
    """The folder of the Rattle toolchain: that of the page that `rt doc` names. Raises Failed."""
    if shutil.which("rt") is None:
        raise Failed("there is no rt on the PATH: the Rattle toolchain proves and builds fc")
    return Path(called(["rt", "doc"]).strip()).parent


def identity() -> str:
    """What the toolchain says that it is. Raises Failed."""
    return called([kit() / "bin/rt", "version"]).strip()


def called(words: list[str | Path], folder: Path = TOP, given: str = "") -> str:
    """What a tool writes to standard output; all that it says goes into the log. Raises Failed if it isn't there or
    fails."""
    OUT.mkdir(parents=True, exist_ok=True)
    try:
        done = subprocess.run(words, cwd=folder, input=given, capture_output=True, text=True, check=False)
    except OSError as error:
        raise Failed(f"{words[0]}: {error.strerror}") from None
    with LOG.open("a") as log:
        log.write(f"$ {' '.join(map(str, words))}\n{done.stdout}{done.stderr}")
    if done.returncode:
        said = (done.stderr or done.stdout).strip().splitlines()[-1:]
        raise Failed(f"{Path(words[0]).name} failed: {''.join(said)[:200]} (all that was said is in {LOG})")
    return done.stdout


def make_toolchain(toolchain: Path) -> None:
    """The folder of links to the kit's toolchain, with the clang that keeps the module."""
    bins = toolchain / "bin"
    shutil.rmtree(toolchain, ignore_errors=True)
    bins.mkdir(parents=True)
    (toolchain / "kit").symlink_to(kit() / "toolchain")
    (toolchain / "lib").symlink_to(kit() / "toolchain/lib")
    for tool in (kit() / "toolchain/bin").iterdir():
        if tool.name != "clang":
            (bins / tool.name).symlink_to(tool)
    shutil.copy(EMBED / "keeping_clang", bins / "clang")


def link_libraries(folder: Path) -> None:
    """A folder with links to the proved libraries of the checkout. Raises Failed if one isn't there."""
    shutil.rmtree(folder, ignore_errors=True)
    folder.mkdir(parents=True)
    for library in CRATES.glob("*/out/rlib/*.rlib"):
        (folder / library.name).symlink_to(library)
    missing = [name for name in libraries()[CRATE] if not (folder / f"{name}.rlib").exists()]
    if missing:
        raise Failed(f"{' and '.join(missing)} isn't built (./build)")


def compile_crate(toolchain: Path) -> None:
    """Proves and compiles the crate. Raises Failed."""
    rattle, proved = kit(), OUT / "rlibs"
    link_libraries(proved)
    externs = [word for name in libraries()[CRATE] for word in ("--extern", f"{name}={proved / name}.rlib")]
    LOG.unlink(missing_ok=True)
    called(
        [
            rattle / "bin/rattle", "build", "--crate-name", CRATE, "src/lib.rt",
            "--extern", f"std={rattle}/rlibs/std.rlib", "-L", f"dependency={rattle}/rlibs",
            *externs, "-L", f"dependency={proved}",
            "--antt-project", rattle / "rattle/logic/antt-project.json", "--logic-built", rattle / "logic_built",
            "--jobs", "1", "--links", f"{CRATE}=", "--crate-type", "staticlib", "--target", TARGET,
            "--toolchain", toolchain, "-o", ARCHIVE,
        ],
        CRATES / CRATE,
    )  # fmt: skip
    if "\nlogic=proved " not in LOG.read_text():
        raise Failed(f"{CRATE} isn't proved ({LOG})")


def compiler() -> str:
    """The C compiler: what the variable CC names, else `cc`."""
    return os.environ.get("CC", "cc")


def join() -> None:
    """Joins the compiled crate, what its heap calls, and the call whose text is in memory of its own, as a static
    library and as a shared one. Raises Failed."""
    heap, extra, exports = kit() / "c/liblibc_c.a", OUT / "fc_call.o", OUT / "exports"
    flags = ("-O2", "-fPIC", "-Wall", "-Wextra", f"-I{HEADER.parent}")
    called([compiler(), *flags, "-c", EMBED / "fc_call.c", "-o", extra])
    script = f"create {STATIC}\naddlib {ARCHIVE}\naddlib {heap}\naddmod {extra}\nsave\nend\n"
    STATIC.unlink(missing_ok=True)
    called([kit() / "toolchain/bin/llvm-ar", "-M"], given=script)
    exports.write_text(EXPORTS)
    called(
        [
            compiler(), "-shared", "-o", SHARED, f"-Wl,-soname,{SHARED.name}", f"-Wl,--version-script={exports}",
            "-Wl,--whole-archive", ARCHIVE, extra, "-Wl,--no-whole-archive", heap,
        ]
    )  # fmt: skip
    link = OUT / "libfc.so"
    link.unlink(missing_ok=True)
    link.symlink_to(SHARED.name)


def state() -> str:
    """What decides the library: the sources, the toolchain, and what is joined with the crate."""
    parts = (HEADER, EMBED / "fc_call.c", EMBED / "keeping_clang")
    return "\n".join([sum_of_sources(TOP), identity(), *(path.read_text() for path in parts)])


def is_built() -> bool:
    """Whether the library stands there, made from what stands here now."""
    files = (ARCHIVE, MODULE, STATIC, SHARED)
    return STAMP.exists() and all(file.exists() for file in files) and STAMP.read_text() == state()


def is_there() -> bool:
    """Whether a library stands there, of whatever sources."""
    return STATIC.exists() and SHARED.exists()


def build() -> None:
    """Builds the library, unless it is built. Raises Failed."""
    if is_built():
        return
    shutil.rmtree(OUT, ignore_errors=True)
    OUT.mkdir(parents=True)
    before = state()
    make_toolchain(OUT / "toolchain")
    compile_crate(OUT / "toolchain")
    join()
    STAMP.write_text(before)

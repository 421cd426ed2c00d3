"""Names in C: which a program may have, and names that clash with nothing."""

from __future__ import annotations

import re
from collections.abc import Iterable

from ..refusals import Fault

WORDS = frozenset(
    "auto break case char const continue default do double else enum extern float for goto if inline int long "
    "register restrict return short signed sizeof static struct switch typedef union unsigned void volatile while "
    "alignas alignof and and_eq asm bitand bitor bool catch char8_t char16_t char32_t class co_await co_return "
    "co_yield compl concept consteval constexpr constinit const_cast decltype delete dynamic_cast explicit export "
    "false friend import module mutable namespace new noexcept not not_eq nullptr operator or or_eq private "
    "protected public reinterpret_cast requires static_assert static_cast template this thread_local throw true "
    "try typeid typename using virtual wchar_t xor xor_eq typeof fortran unix linux mips arm avr i386 AVR main "
    "NULL offsetof size_t ptrdiff_t max_align_t".split()
)
"""Words of C and C++, and what compilers and the headers of the firmware define besides."""
HEADERS = frozenset(
    "assert complex ctype errno fenv float inttypes iso646 limits locale math setjmp signal stdalign stdarg stdatomic "
    "stdbool stddef stdint stdio stdlib stdnoreturn string tgmath threads time uchar wchar wctype".split()
)
"""Headers of C, whose names the header of a firmware can't have."""
OF_HEADERS = re.compile(
    r"U?INT\w*_(MAX|MIN|C|WIDTH)|(SIZE|PTRDIFF|WCHAR|WINT|SIG_ATOMIC)_(MAX|MIN|WIDTH)|u?int\w*_t|w(char|int)_t"
)
OWN = ("device", "inputs", "given", "here", "i", "result")
"""What the functions of the firmware call their own parameters and counters."""
NAME = re.compile(r"[A-Za-z][A-Za-z0-9_]{0,39}")


def reserved(name: str) -> bool:
    """Whether a name means something else in C or C++, or in the headers that the firmware includes."""
    return name in WORDS or OF_HEADERS.fullmatch(name) is not None


def firmware_name(wanted: str) -> str:
    """The name before all names of a firmware. Raises Fault if it can't be one."""
    if not NAME.fullmatch(wanted) or reserved(wanted) or wanted in HEADERS:
        raise Fault(f"--name: {wanted!r} can't be the name; take letters, digits and _, with a letter first")
    return wanted


def name_of_file(path: str) -> str:
    """The name that a firmware has from the name of a program's file."""
    stem = re.sub(r"[^A-Za-z0-9_]", "_", re.sub(r"^.*/|\.[^./]*$", "", path))[:40]
    free = NAME.fullmatch(stem) and not reserved(stem) and stem not in HEADERS
    return stem if free else "field"


def members(inputs: Iterable[str]) -> dict[str, str]:
    """The names of inputs as members of a struct, by their names in the program; each is another one."""
    found = {name: name for name in inputs}
    for name in [name for name in found if reserved(name)]:
        while found[name] in (*found, *(taken for other, taken in found.items() if other != name)):
            found[name] += "_"
    return found


class Names:
    """The names of one function: each that is given is new."""

    def __init__(self, firmware: str) -> None:
        self.front = (firmware + "_", firmware.upper() + "_")
        self.taken = set(OWN)

    def new(self, wanted: str) -> str:
        """A name that is the one that is wanted, or near it."""
        base = "its_" + wanted if wanted.startswith(self.front) else wanted
        name, count = base, 1
        while name in self.taken or reserved(name):
            count += 1
            name = f"{base}_{count}"
        self.taken.add(name)
        return name

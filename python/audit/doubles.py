"""Names with several meanings among the definitions on which the clause of `fc` leans.

There are none. A `struct` of the code and the `record` of the same crate and name are one notion: the record says what
the struct stands for, as its `Model` or a view of it.
"""

from __future__ import annotations

from collections.abc import Iterable

from .definitions import Definition


def names_of(it: Definition) -> list[str]:
    """The name of a definition and those of its cases; rules of a relation, in small letters, are left out."""
    return [it.name, *(case for case in it.cases if case[0].isupper())]


def is_struct_with_its_record(those: Iterable[Definition]) -> bool:
    """Whether these are a struct of the code and the record of the same crate."""
    first, *rest = sorted(those, key=lambda it: it.file.endswith(".rt"))
    return (
        len(rest) == 1
        and rest[0].crate == first.crate
        and "record " in first.text.partition(first.name)[0]
        and "struct " in rest[0].text.partition(first.name)[0]
    )


def doubles(found: Iterable[Definition]) -> dict[str, list[str]]:
    """Each name that stands for several things, with their files."""
    named: dict[str, dict[str, Definition]] = {}
    for it in found:
        for name in names_of(it):
            named.setdefault(name, {})[it.file] = it
    return {
        name: sorted(files)
        for name, files in sorted(named.items())
        if len(files) > 1 and not is_struct_with_its_record(files.values())
    }

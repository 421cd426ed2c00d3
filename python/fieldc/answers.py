"""What all results of the library can do: say yes or no, become a table, and be shown in a notebook."""

from __future__ import annotations

from dataclasses import dataclass, field
from typing import TYPE_CHECKING

from .networks import Network

if TYPE_CHECKING:
    from pandas import DataFrame


@dataclass(frozen=True)
class Origin:
    """What a result is of: the program's text, and the network; of a run the one after its last line."""

    program: str
    network: Network


@dataclass(frozen=True)
class Answer:
    """A result. `of` is what it is of, where the library knows; it isn't compared, and not shown."""

    of: Origin | None = field(default=None, kw_only=True, compare=False, repr=False)

    def __bool__(self) -> bool:
        """Whether the verdict is a yes. Raises TypeError if there is none."""
        verdict = getattr(self, "verdict", None)
        if verdict is None:
            raise TypeError(f"{type(self).__name__} has no verdict: ask fieldc.check, or look at its values")
        return bool(verdict)

    def to_frame(self) -> DataFrame:
        """The result as a table of pandas, with a row for each device (of facts, shows and summaries as many as there
        are). Raises Fault if pandas isn't there."""
        from .frames import frame_of

        return frame_of(self)

    def _repr_html_(self) -> str:
        from .frames import html_of

        return html_of(self)

    def _repr_png_(self) -> bytes | None:
        from .frames import png_of

        return png_of(self)

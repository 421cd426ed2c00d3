"""Draws a result on axes of matplotlib."""

from __future__ import annotations

from collections.abc import Hashable, Sequence
from dataclasses import replace
from typing import TYPE_CHECKING, cast

from . import results
from .answers import Answer, Origin
from .colours import Meaning
from .networks import Network, declared
from .picture import Frame, Picture, at_places, bounding, check_marks, gathered, settling
from .refusals import Fault

if TYPE_CHECKING:
    from matplotlib.axes import Axes

WITHOUT_VALUES = (results.Checked, results.Generated)


def can_be_drawn(result: Answer) -> bool:
    """Whether a result has values of devices of a network that is known."""
    return result.of is not None and not isinstance(result, WITHOUT_VALUES) and bool(values_of(result))


def values_of(result: Answer) -> results.Values:
    """What a result says of devices; of a run what is shown last."""
    if isinstance(result, results.Ran):
        return result.shows[-1].values if result.shows else {}
    found: results.Values = getattr(result, "values", {})
    return found


def draw(
    result: Answer | Network,
    *,
    ax: Axes | None = None,
    title: str = "",
    marks: Sequence[str] = (),
    numbers: bool = False,
) -> Axes:
    """Draws a network, or a result on its network, on axes of matplotlib (or on the current ones), and returns them.

    `marks` are inputs whose devices are marked where they are true; `numbers` writes numbers or names beside devices.
    Raises Fault if the result has no values of devices, and if matplotlib isn't there.
    """
    try:
        from matplotlib import pyplot
    except ImportError:
        raise Fault("pictures need matplotlib (Debian: python3-matplotlib)") from None
    from .drawing import paint

    network = result if isinstance(result, Network) else origin_of(result).network
    picture = replace(check_marks(picture_of(result), marks), title=title, numbers=numbers)
    axes: Axes = pyplot.gca() if ax is None else ax
    whole = bool(network.positions) and network.positions.keys() >= network.inputs.keys()
    paint(axes, at_places(picture, network.positions if whole else None))
    return axes


def origin_of(result: Answer) -> Origin:
    """What a result is of. Raises Fault if it isn't known, or there are no values of devices."""
    if result.of is None or not can_be_drawn(result):
        raise Fault(
            f"{type(result).__name__} has no values of devices of a network that is known, which could be drawn"
        )
    return result.of


def picture_of(result: Answer | Network) -> Picture:
    """The picture of a network, or of a result on its network, by the numbers of the devices."""
    if isinstance(result, Network):
        return gathered(None, result, None, None)
    of = origin_of(result)
    number = {node: device for device, node in of.network.nodes.items()}

    def at(node: Hashable) -> int:
        return number.get(node, cast(int, node))

    if isinstance(result, results.Bounds):
        held = {at(node): one for node, one in result.by_device.items()}
        return bounding(of.network, replace(result, by_device=held), None, declared(of.program))
    if isinstance(result, results.Settled):
        by_device = {at(node): rounds for node, rounds in result.by_device.items()}
        return settling(of.network, replace(result, by_device=by_device), result.verdict.line)
    values: dict[Hashable, results.Value | None] = {at(node): value for node, value in values_of(result).items()}
    walks = (result.walks or {}) if isinstance(result, results.Traced) else {}
    frame = Frame("", of.network, values, {at(node): tuple(map(at, walk)) for node, walk in walks.items()})
    return Picture((frame,), {}, Meaning(ceiling=declared(of.program).ceiling))

"""The front end of `fc`, the interpreter and proved checker of the first-order field calculus.

    import fieldc, networkx

    graph = networkx.path_graph(3)
    networkx.set_node_attributes(graph, {0: True, 1: False, 2: False}, "src")
    hops = "ceiling 10; input src: bool; main = rep(10){(d) => minHoodLoc(nbr{d} + 1, mux(sense src, 0, 10))};"
    fieldc.stable(hops, graph).values           # {0: 0, 1: 1, 2: 2}

Each call takes a program's text and a network: a networkx graph with inputs as node attributes and weights as edge
attributes, a `Network`, or a scene, as a mapping or as JSON. Verdicts, values, rounds and logs come from `fc` alone.
What `fc` refuses is raised as a `Refusal`, whose `explanation` has the place, and what is no network as a `Fault`.
"""

from __future__ import annotations

from .cuts import Cut, Untold
from .errors import Error
from .library import bounds, check, compose, cut, format, generate, mail, replay, run, settle, stable, trace
from .networks import Network, from_graph, read_scene
from .plots import draw
from .refusals import Call, Explanation, Fault, Refusal, Section
from .results import (
    Bound,
    Bounds,
    Checked,
    Fact,
    Generated,
    Held,
    Mailed,
    Ran,
    Replayed,
    Settled,
    Show,
    Stable,
    Traced,
    Verdict,
)
from .shapes import network
from .version import VERSION as __version__

__all__ = [
    "Bound",
    "Bounds",
    "Call",
    "Checked",
    "Cut",
    "Error",
    "Explanation",
    "Fact",
    "Fault",
    "Generated",
    "Held",
    "Mailed",
    "Network",
    "Ran",
    "Refusal",
    "Replayed",
    "Section",
    "Settled",
    "Show",
    "Stable",
    "Traced",
    "Untold",
    "Verdict",
    "__version__",
    "bounds",
    "check",
    "compose",
    "cut",
    "draw",
    "format",
    "from_graph",
    "generate",
    "mail",
    "network",
    "read_scene",
    "replay",
    "run",
    "settle",
    "stable",
    "trace",
]

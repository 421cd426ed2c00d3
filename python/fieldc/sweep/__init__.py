"""A program over many deployments: networks drawn by a rule, each from its seed alone, and what `fc` says of each.

    from fieldc import sweep

    rule = sweep.Rule("disk", count=(60, 60), reach=20.0, inputs=(sweep.Setting("src", True, 2),))
    network = sweep.deployment(rule, 17)                      # that of seed 17, the same on every machine
    row = sweep.Question(rule, program).row(17)               # what fc says of it
    row.rounds, row.open                                      # (119, False)

`deployments` draws, `questions` asks `fc`, `rows` keeps the answers in a file, `running` asks many at once on the
processors of this machine or on a Dask cluster, and `report` draws what came of it.
"""

from __future__ import annotations

from .deployments import Rule, Setting, deployment
from .questions import Question
from .rows import Row

__all__ = ["Question", "Row", "Rule", "Setting", "deployment"]

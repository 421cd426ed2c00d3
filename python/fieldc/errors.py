"""The base of all errors of this package."""

from __future__ import annotations


class Error(Exception):
    """What `fieldc` or `fc` refuses: a Fault of the front itself, a Refusal of `fc`, or a fault that a reader of this
    package found in a program or in a text of JSON."""

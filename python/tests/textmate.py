"""A small reader of TextMate grammars: rules `match`, `begin` and `end`, captures, and includes of the repository.

The expressions of the grammar have to be ones that Python and Oniguruma read alike.
"""

from __future__ import annotations

import json
import re
from collections.abc import Iterator, Mapping
from pathlib import Path
from typing import Any

Rule = Mapping[str, Any]


class Grammar:
    """A grammar, which colours a text line by line."""

    def __init__(self, path: Path) -> None:
        self.whole = json.loads(path.read_text())

    def rules(self, patterns: list[Rule]) -> Iterator[Rule]:
        """The rules of some patterns, with those that they include in their place."""
        for rule in patterns:
            if "include" in rule:
                inner = self.whole["repository"][rule["include"].removeprefix("#")]
                yield from [inner] if "match" in inner or "begin" in inner else self.rules(inner["patterns"])
            else:
                yield rule

    def colours(self, text: str) -> list[list[str]]:
        """For each line the innermost scope of each of its characters, which is empty where none is."""
        stack: list[Rule] = []
        return [self._line(line, stack) for line in text.splitlines(keepends=True)]

    def _line(self, line: str, stack: list[Rule]) -> list[str]:
        scopes = [""] * len(line)
        at = 0
        while at < len(line):
            patterns = stack[-1].get("patterns", []) if stack else self.whole["patterns"]
            ways = [(stack[-1], "end")] if stack else []
            ways += [(rule, "match" if "match" in rule else "begin") for rule in self.rules(patterns)]
            hits = [re.compile(rule[key]).search(line, at) for rule, key in ways]
            found = [(hit.start(), order, hit) for order, hit in enumerate(hits) if hit]
            if not found:
                break
            _, order, hit = min(found, key=lambda one: one[:2])
            rule, key = ways[order]
            captures = rule.get("captures") or rule.get(f"{key}Captures") or {}
            self._paint(scopes, hit, rule.get("name", "") if key == "match" else "", captures)
            if key == "begin":
                stack.append(rule)
            elif key == "end":
                stack.pop()
            at = hit.end() if hit.end() > at or key != "match" else at + 1
        return scopes

    @staticmethod
    def _paint(scopes: list[str], hit: re.Match[str], name: str, captures: Mapping[str, Rule]) -> None:
        for place in range(hit.start(), hit.end()):
            scopes[place] = name
        for number, rule in captures.items():
            for place in range(*hit.span(int(number))):
                scopes[place] = rule["name"]

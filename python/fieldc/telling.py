"""How refusals are told to a person: the line of `fc`, the sentence, the line of the file with a caret, and what to
try."""

from __future__ import annotations

from .refusals import Explanation, Refusal

WIDEST = 160


def told(refusal: Refusal, explanation: Explanation) -> str:
    """The lines for standard error, each ended by a line feed."""
    lines = [f"fieldc: {refusal.line or 'status ' + str(refusal.status)}"]
    if explanation.what != refusal.line:
        lines.append(place_of(explanation) + explanation.what)
    return "\n".join(lines) + "\n" + rest_of(explanation)


def rest_of(explanation: Explanation) -> str:
    """The lines after the sentence: the line of the file with a caret, what to try, and the page to read."""
    lines = ["    " + line for line in quoted(explanation)]
    lines += [f"try: {explanation.hint}"] * bool(explanation.hint) + [f"read: {explanation.page}"] * bool(
        explanation.page
    )
    return "".join(line + "\n" for line in lines)


def place_of(explanation: Explanation) -> str:
    """The front of a sentence: `mine.fc:3:12: `, or as much of it as is known."""
    section = explanation.section
    if section is None:
        return ""
    parts = ["standard input" if section.name == "-" else section.name or section.kind]
    if explanation.line is not None:
        parts.append(str(explanation.line))
        if explanation.column is not None:
            parts.append(str(explanation.column))
    return ":".join(parts) + ": "


def quoted(explanation: Explanation) -> list[str]:
    """The line of the file that is meant, and below it a caret at the place; nothing if they aren't known, or the line
    is empty."""
    section, line = explanation.section, explanation.line
    if section is None or line is None:
        return []
    rows = section.text.split("\n")
    place = line - section.first_line
    if not 0 <= place < len(rows) or not rows[place].strip():
        return []
    row, column = rows[place].rstrip("\r"), explanation.column
    if column is None:
        return [row if len(row) <= WIDEST else row[: WIDEST - 2] + ".."]
    front = max(0, column - 1 - WIDEST // 2) if len(row) > WIDEST else 0
    shown = row[front : front + WIDEST]
    lead, tail = ".." if front else "", ".." if front + WIDEST < len(row) else ""
    under = "".join("\t" if mark == "\t" else " " for mark in lead + row[front : column - 1])
    return [lead + shown + tail, under + "^"]


def counted(count: int, thing: str) -> str:
    """A number and what is counted, in one form of its two."""
    return f"{count:,} {thing}{'' if count == 1 else 's'}"


def listed(words: list[str], last: str = "and") -> str:
    """Words with commas between, and a word before the last."""
    return words[0] if len(words) == 1 else f"{', '.join(words[:-1])} {last} {words[-1]}"

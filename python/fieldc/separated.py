"""Rows of separated values, or of points in GeoJSON, and what their columns are: ids, times, positions, inputs."""

from __future__ import annotations

import csv
from collections.abc import Container, Iterable, Mapping, Sequence
from dataclasses import dataclass
from types import MappingProxyType

from . import geojson
from .columns import DECIMAL, LATITUDES, LONGITUDES, TIMES, input_word, latitude, longitude, real
from .networks import Declared, Input, Pair, Position, declared, fitting, input_of
from .refusals import Fault
from .sections import read
from .telling import counted

DELIMITERS = (";", "\t", "|", ",", ":", " ")
IDS = ("id", "device", "name", "node")
MOVE = "move"
Row = tuple[int, list[str]]
"""The line on which a row begins, and its fields."""


def text_of_file(name: str) -> str:
    """The text of a file in UTF-8, without a byte order mark. Raises Fault if it isn't in UTF-8."""
    text = read(name)
    try:
        text.encode("utf-8")
    except UnicodeEncodeError:
        raise Fault(f"{name} isn't in UTF-8", 3) from None
    return text.removeprefix("\ufeff")


@dataclass(frozen=True)
class Columns:
    """The rows of a file, and which of their columns are what.

    `across` are the columns of positions, `id`, `time` and `move` those of ids, of times and of how far a device may
    move, where there are some. `taken` are the
    names of the inputs, `left_out` those of columns that are nothing. `wanted` is what a program declares, and `scale`
    what numbers of inputs are multiplied by.
    """

    name: str
    header: Sequence[str]
    rows: Sequence[Row]
    across: Pair
    id: int | None
    time: int | None
    taken: Sequence[str]
    left_out: tuple[str, ...]
    wanted: Declared | None
    scale: Mapping[str, float]
    move: int | None = None

    @property
    def in_degrees(self) -> bool:
        """Whether positions are latitudes and longitudes."""
        return self.header[self.across[0]].lower() in LATITUDES

    def place(self, row: Row) -> Position:
        """The position of a row: x and y, or degrees to the north and to the east. Raises Fault if it is none."""
        first, second = (row[1][place] for place in self.across)
        one, other = (self.where(row, self.header[place]) for place in self.across)
        if self.in_degrees:
            return latitude(first, one), longitude(second, other)
        return real(first, one), real(second, other)

    def may_move(self, row: Row) -> float | None:
        """How far the device of a row may move; None if the file doesn't say it. Raises Fault if it is no length."""
        if self.move is None:
            return None
        where = self.where(row, self.header[self.move])
        found = real(row[1][self.move], where)
        if found < 0:
            raise Fault(f"{where} is {row[1][self.move]}, and a device moves at least 0", 3)
        return found

    def inputs(self, row: Row) -> dict[str, Input]:
        """The inputs of a row. Raises Fault if one can't be one."""
        return {word: self._input(row, word) for word in self.taken}

    def _input(self, row: Row, name: str) -> Input:
        span = self.wanted.inputs.get(name, ()) if self.wanted is not None else ()
        where = self.where(row, name)
        value = input_word(row[1][self.header.index(name)], where, name, span is None, self.scale)
        if isinstance(value, str) and self.wanted is None:
            remedy = "if the column isn't an input, name the inputs with --inputs or --program"
            raise Fault(f"{where} is {value!r}, and an input is true, false or a whole number; {remedy}", 3)
        return input_of(value, where) if span == () else fitting(value, span or None, where)

    def id_of(self, row: Row) -> str:
        """The id of a row. Raises Fault if it is empty."""
        assert self.id is not None
        if not row[1][self.id]:
            raise Fault(f"{self.where(row)}: the device has no name", 3)
        return row[1][self.id]

    def where(self, row: Row, column: str = "") -> str:
        """Where a row stands, or a field of it."""
        return f"{self.name} line {row[0]}" + (f": {column}" if column else "")


def columns_of(
    name: str,
    program: str | None = None,
    inputs: Sequence[str] | None = None,
    scale: Mapping[str, float] = MappingProxyType({}),
    timed: bool = False,
    moving: bool = False,
) -> Columns:
    """The columns of a file, of which some are times if it is `timed`, and one, if it is `moving`, may say how far
    devices move; `points` of `files` says which names they have.

    Raises Fault, of status 3, with the line that is at fault.
    """
    header, body, across = _header(name, _rows(name), timed)
    wanted = declared(program) if program is not None else None
    asked = {*(wanted.inputs if wanted is not None else ()), *(inputs or ())}
    time = _first(header, TIMES) if timed else None
    at = _id_column(header, (*across, time), asked)
    move = _first(header, (MOVE,)) if moving and MOVE not in asked else None
    further = [word for place, word in enumerate(header) if place not in (at, time, move, *across)]
    taken, left_out = _taken(name, further, wanted, inputs)
    return Columns(name, header, body, across, at, time, taken, left_out, wanted, scale, move)


def has_times(name: str) -> bool:
    """Whether the rows of a file have times, and some device several of them. Raises Fault if it has no rows."""
    (_, header), *rows = _rows(name)
    time, at = _first(header, TIMES), _first(header, IDS)
    return time is not None and at is not None and len({row[at] for _, row in rows}) < len(rows)


def _id_column(header: Sequence[str], others: Container[int | None], inputs: Container[str]) -> int | None:
    """The column of ids: one that is called so, else the first, unless that is something else."""
    found = _first(header, IDS)
    return found if found is not None else None if 0 in others or header[0] in inputs else 0


def _first(header: Sequence[str], names: Iterable[str]) -> int | None:
    """The column that has the first of some names that is there."""
    lowered = [word.lower() for word in header]
    return next((lowered.index(word) for word in names if word in lowered), None)


def _rows(name: str) -> list[Row]:
    """The rows of a file that aren't empty, with their lines; all have as many fields as the first."""
    text = text_of_file(name)
    if text.lstrip()[:1] == "{":
        return geojson.rows_of(name, text)
    lines = [(number, line) for number, line in enumerate(text.splitlines(), 1) if line.strip()]
    if not lines:
        raise Fault(f"{name} has no rows", 3)
    fields = {mark: len(_fields(lines[0][1], mark)) for mark in DELIMITERS}
    delimiter = next((mark for least in (3, 2) for mark in DELIMITERS if fields[mark] >= least), None)
    if delimiter is None:
        raise Fault(f"{name} line {lines[0][0]}: not a row id, x, y", 3)
    rows = [(number, _fields(line, delimiter)) for number, line in lines]
    for number, row in rows:
        if len(row) != len(rows[0][1]):
            fields_here = counted(len(row), "field")
            raise Fault(f"{name} line {number}: {fields_here}, and line {rows[0][0]} has {len(rows[0][1])}", 3)
    return rows


def _fields(line: str, delimiter: str) -> list[str]:
    if delimiter == " ":
        return line.split()
    return [field.strip() for field in next(csv.reader([line], delimiter=delimiter, skipinitialspace=True))]


def is_number(word: str) -> bool:
    """Whether a word is a number of Python."""
    try:
        float(word)
    except ValueError:
        return False
    return True


def _header(name: str, rows: list[Row], timed: bool) -> tuple[list[str], list[Row], Pair]:
    """The names of the columns, the rows after them, and the columns of positions; without names they are id, x, y, or
    t, id, x, y."""
    line, first = rows[0]
    lowered = [word.lower() for word in first]
    across, usual = _across(lowered), ["t", "id", "x", "y"] if timed else ["id", "x", "y"]
    said, width = ", ".join(usual), len(usual)
    if across is not None:
        if len(set(lowered)) < len(lowered):
            raise Fault(f"{name} line {line}: two columns have one name", 3)
        if len(rows) == 1:
            raise Fault(f"{name} has no rows after the names of its columns", 3)
        for wanted in (TIMES, IDS) if timed else ():
            if _first(first, wanted) is None:
                raise Fault(f"{name} line {line}: no column is called {wanted[0]}, nor {' or '.join(wanted[1:])}", 3)
        return first, rows[1:], across
    if len(first) == 2 and all(map(DECIMAL.fullmatch, first)):
        raise Fault(f"{name} line {line}: 2 numbers; with a line x,y in front rows are numbered", 3)
    if len(first) < width or not all(DECIMAL.fullmatch(word) or is_number(word) for word in first[width - 2 : width]):
        columns = "names of columns with x and y (or lat and lon) among them"
        raise Fault(f"{name} line {line}: neither a row {said}, nor {columns}", 3)
    if len(first) > width:
        raise Fault(f"{name} line {line}: {len(first)} fields, but no names of columns come first", 3)
    return usual, rows, (width - 2, width - 1)


def _across(lowered: list[str]) -> Pair | None:
    """The columns of x and y, or of latitude and longitude."""
    for firsts, seconds in ((("x",), ("y",)), (LATITUDES, LONGITUDES)):
        first, second = _first(lowered, firsts), _first(lowered, seconds)
        if first is not None and second is not None:
            return first, second
    return None


def _taken(
    name: str, further: Sequence[str], wanted: Declared | None, inputs: Sequence[str] | None
) -> tuple[list[str], tuple[str, ...]]:
    """The further columns that are inputs, and those that are left out."""
    if inputs is None and wanted is None:
        return list(further), ()
    named = list(inputs or ()) if wanted is None or inputs is not None else [w for w in wanted.inputs if w in further]
    for word in named:
        if word not in further:
            raise Fault(f"{name} has no column {word}", 3)
    return named, tuple(word for word in further if word not in named)

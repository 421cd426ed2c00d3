"""Points of GeoJSON as rows of a table: longitudes, latitudes, and the properties of the features."""

from __future__ import annotations

import json
import re
from collections.abc import Iterator
from typing import Any

from .refusals import Fault

SPACE = re.compile(r"[ \t\r\n]*")


def rows_of(name: str, text: str) -> list[tuple[int, list[str]]]:
    """The features of a text as rows with the lines on which they begin: first a row of names, `lon`, `lat` and those
    of all properties.

    Raises Fault, of status 3, if the text isn't a list of points that all have the same properties.
    """
    try:
        whole = json.loads(text)
    except (ValueError, RecursionError) as error:
        raise Fault(f"{name} isn't GeoJSON: {error}", 3) from None
    if whole.get("type") != "FeatureCollection" or not isinstance(whole.get("features"), list):
        raise Fault(f'{name} is not GeoJSON of points: it has to be of "type": "FeatureCollection"', 3)
    found = [(line, _fields(f"{name} line {line}", feature)) for line, feature in _features(text)]
    if not found:
        raise Fault(f"{name} has no features", 3)
    header = list(dict.fromkeys(word for _, fields in found for word in fields))
    for line, fields in found:
        for word in header:
            if word not in fields:
                raise Fault(f"{name} line {line}: this feature has no {word}, but others have one", 3)
    return [(found[0][0], header), *((line, [fields[word] for word in header]) for line, fields in found)]


def _features(text: str) -> Iterator[tuple[int, Any]]:
    """The features of a text that is a collection of them, each with the line on which it begins."""
    decoder, line, counted = json.JSONDecoder(), 1, 0

    def behind(place: int) -> int:
        found = SPACE.match(text, place)
        return found.end() if found is not None else place

    place = behind(behind(0) + 1)
    while text[place] != "}":
        key, place = decoder.raw_decode(text, place)
        place = behind(behind(place) + 1)
        if key != "features":
            _, place = decoder.raw_decode(text, place)
        else:
            place = behind(place + 1)
            while text[place] != "]":
                line, counted = line + text.count("\n", counted, place), place
                feature, place = decoder.raw_decode(text, place)
                yield line, feature
                place = behind(place)
                place = behind(place + 1) if text[place] == "," else place
            place += 1
        place = behind(place)
        place = behind(place + 1) if text[place] == "," else place


def _fields(where: str, feature: Any) -> dict[str, str]:
    """The fields of a feature by their names."""
    geometry = feature.get("geometry") if isinstance(feature, dict) else None
    if not isinstance(geometry, dict) or geometry.get("type") != "Point":
        kind = f"a {geometry.get('type')}" if isinstance(geometry, dict) else "nowhere"
        raise Fault(f"{where}: this feature is {kind}; it has to be a Point", 3)
    at = geometry.get("coordinates")
    if not isinstance(at, list) or len(at) not in (2, 3):
        raise Fault(f"{where}: the coordinates of this feature aren't [longitude, latitude]", 3)
    properties = feature.get("properties") or {}
    id_too = {"id": feature["id"]} if "id" in feature and "id" not in properties else {}
    fields = {"lon": at[0], "lat": at[1], **id_too, **properties}
    return {word: value if isinstance(value, str) else json.dumps(value) for word, value in fields.items()}

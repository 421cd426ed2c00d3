"""A checked program as C for devices: what is sent and kept, expressions, functions, and the header."""

from __future__ import annotations

from .header import header_text, layout_text
from .model import Firmware, firmware_of
from .source import source_text

__all__ = ["Firmware", "firmware_of", "header_text", "layout_text", "source_text"]

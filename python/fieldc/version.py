"""The version of this package and its date, which the command, the packaging and the manual read from here."""

VERSION = "1.0"
DATE = "2026-11-30"

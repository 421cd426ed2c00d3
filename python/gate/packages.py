"""The packages of Debian that the tests need, by the list `packages.txt` at the top."""

from __future__ import annotations

import os
import subprocess

from .places import TOP

LIST = TOP / "packages.txt"


class Missing(Exception):
    """Packages aren't there and can't be installed; the text names them."""


def wanted() -> list[str]:
    """The packages of the list."""
    return [line.split()[0] for line in LIST.read_text().splitlines() if line and not line.startswith("#")]


def is_installed(package: str) -> bool:
    """Whether a package is installed."""
    words = ["dpkg-query", "--show", "--showformat", "${db:Status-Status}", package]
    done = subprocess.run(words, capture_output=True, text=True, check=False)
    return done.stdout == "installed"


def missing() -> list[str]:
    """Those that aren't installed. Raises Missing if they can't be installed either, as this isn't root."""
    found = [package for package in wanted() if not is_installed(package)]
    if found and os.geteuid():
        raise Missing(f"packages are missing: apt-get install {' '.join(found)}")
    return found


def install(packages: list[str]) -> None:
    """Installs packages, if there are any. Raises Missing, with what `apt-get` said."""
    if not packages:
        return
    names = " ".join(packages)
    environment = dict(os.environ, DEBIAN_FRONTEND="noninteractive")
    for words in (["update"], ["install", "--yes", "--no-install-recommends", *packages]):
        apt_get = ["apt-get", "--quiet=2", *words]
        done = subprocess.run(apt_get, env=environment, capture_output=True, text=True, check=False)
        if done.returncode:
            raise Missing(f"apt-get {words[0]} failed; packages are missing: {names}\n{done.stdout}{done.stderr}")

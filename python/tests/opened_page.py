"""The page to try fc, open in a browser, and what a user does with it."""

from __future__ import annotations

import json
import os
import subprocess
import tempfile
import time
import unittest
from collections.abc import Iterator
from contextlib import contextmanager
from pathlib import Path

from browsing import Browser
from helping import fixed_work

from release import module, page

FC = os.environ.get("FC", "fc")
ANSWERED = "!['loading', 'working ..'].includes(document.getElementById('brief').textContent) && !asking()"
TEXTS = """
    [...document.querySelectorAll(".device")].map((one) => [
        Number(one.dataset.id), one.querySelector(".value").textContent])
"""
SHORT = {"true": "T", "false": "F"}
HERE_STAY = ("file:", "blob:", "data:", "about:")
# within these the largest network is answered, where nothing else runs
SECONDS = 10
# and for so many milliseconds at most nothing moves meanwhile
STILL = 1000
GAPS = """
    window.gap = 0; let before = performance.now();
    setInterval(() => { const now = performance.now(); gap = Math.max(gap, now - before); before = now; }, 10); 1
"""
BY_METRES = """\
ceiling 200; input src: bool; metric 1..60;
main = rep(200){(d) => minHoodLoc(nbr{d} + nbrLink, mux(sense src, 0, 200))};
"""
FAR_HOPS = "ceiling 200; input src: bool;\nmain = rep(200){(d) => minHoodLoc(nbr{d} + 1, mux(sense src, 0, 200))};\n"


def answer(words: str, text: str) -> tuple[int, str]:
    """What the program answers."""
    done = subprocess.run([FC, *words.split()], input=text.encode(), capture_output=True, check=False)
    return done.returncode, done.stdout.decode()


class Opened(unittest.TestCase):
    """A browser with the page of today's sources."""

    folder: Path
    file: Path
    browser: Browser

    @classmethod
    def setUpClass(cls) -> None:
        kept = tempfile.TemporaryDirectory()
        cls.addClassCleanup(kept.cleanup)
        cls.folder = Path(kept.name)
        cls.file = cls.folder / "play.html"
        cls.file.write_text(page.text(module.MADE.read_bytes()))
        cls.browser = Browser()
        cls.addClassCleanup(cls.browser.close)

    def setUp(self) -> None:
        self.browser.screen(1500, 1000)
        self.open()

    def tearDown(self) -> None:
        self.assertEqual(self.browser.failures, [])
        self.assertEqual([url for url in self.browser.requests if not url.startswith(HERE_STAY)], [])

    def open(self, state: str = "") -> None:
        """Opens the page, and waits for its answer."""
        self.browser.open(self.file, state)
        self.settled()

    def settled(self) -> None:
        """Waits until nothing is asked any more."""
        self.browser.until(ANSWERED)

    def of(self, name: str) -> str:
        """The text of an element."""
        return str(self.browser.value(f"document.getElementById('{name}').textContent"))

    def numbers(self) -> dict[int, str]:
        """What is written on the devices."""
        return dict(self.browser.value(TEXTS))

    def place(self, device: int) -> tuple[float, float]:
        """Where a device is in the window."""
        self.browser.middle("#drawing")
        return self.browser.where(f".device[data-id='{device}'] .body")

    def free(self, x: float, y: float) -> tuple[float, float]:
        """A place of the drawing in the window, by parts of its width and height."""
        self.browser.middle("#drawing")
        left, top, width, height = self.browser.box("#drawing")
        return left + x * width, top + y * height

    def tool(self, name: str) -> None:
        """Chooses what a click on the drawing does."""
        self.browser.click_on(f"input[value={name}] + span")

    def choose(self, name: str, value: str) -> None:
        """Chooses an entry of a list by keys."""
        place = f"document.getElementById('{name}')"
        wanted = self.browser.value(f"[...{place}.options].findIndex((one) => one.value === {json.dumps(value)})")
        now = self.browser.value(f"{place}.selectedIndex")
        self.assertGreaterEqual(wanted, 0, value)
        self.settled()
        self.browser.value(f"{place}.focus()")
        for _ in range(abs(wanted - now)):
            self.browser.press("ArrowDown" if wanted > now else "ArrowUp")
        self.assertEqual(self.browser.value(f"{place}.selectedIndex"), wanted)

    def press_in(self, part: str, text: str) -> None:
        """Clicks on a button within a part of the page, by what stands on it."""
        buttons = f"[...document.querySelectorAll('#{part} button')]"
        self.browser.value(f"{buttons}.find((one) => one.textContent === {json.dumps(text)}).dataset.wanted = ''")
        self.browser.click_on("[data-wanted]")
        self.browser.value("document.querySelector('[data-wanted]')?.removeAttribute('data-wanted')")
        self.settled()

    def write_lines(self, text: str) -> None:
        """Types lines of what may change in the place of those that are there."""
        self.browser.value("document.getElementById('changing').open = true")
        self.browser.click_on("#changes")
        self.browser.value("document.getElementById('changes').select()")
        self.browser.type(text)
        self.settled()

    def lines(self) -> list[str]:
        """The lines of what may change."""
        return str(self.browser.value("document.getElementById('changes').value")).split("\n")[:-1]

    def read(self, name: str, text: str) -> None:
        """Chooses a file."""
        file = self.folder / name
        file.write_text(text)
        self.browser.files("#read", file)
        self.browser.until("document.getElementById('read').value === ''")

    def write(self, text: str) -> None:
        """Types a program in the place of the one that is there."""
        self.browser.click_on("#program")
        self.browser.value("document.getElementById('program').select()")
        self.browser.type(text)
        self.settled()

    def make_largest(self) -> None:
        """Has the largest network made."""
        self.browser.value("document.getElementById('making').open = true")
        self.browser.value("document.getElementById('count').select()")
        self.browser.type("1024")
        self.browser.click_on("#make button")

    @contextmanager
    def in_time(self) -> Iterator[None]:
        """Fails if what is done takes too long, or leaves the page still for too long. A busy machine has longer."""
        start = time.monotonic()
        fixed_work()
        # about 1 where nothing else runs
        busy = max(1.0, time.monotonic() - start)
        self.browser.value(GAPS)
        start = time.monotonic()
        yield
        took, gap = time.monotonic() - start, self.browser.value("gap")
        self.assertLess(took, SECONDS * busy, f"{took:.1f} s, and {busy:.1f} s for the fixed work")
        self.assertLess(gap, STILL * busy, f"{gap:.0f} ms, and {busy:.1f} s for the fixed work")

    def input(self) -> str:
        """The program, the network and what may change as an input of fc, as the page saves it."""
        saved = self.folder / "input.txt"
        saved.unlink(missing_ok=True)
        self.browser.call("Page.setDownloadBehavior", behavior="allow", downloadPath=str(self.folder))
        self.browser.value("document.getElementById('making').open = true")
        self.browser.click_on("#save-input")
        for _ in range(200):
            # the browser makes an empty file first, and then puts the whole one in its place
            if saved.exists() and saved.stat().st_size:
                break
            self.browser.value("new Promise((done) => setTimeout(done, 20))")
        return saved.read_text()

    def is_as_program(self) -> None:
        """The numbers on the devices, the verdict and the settle rounds are the program's, and the bounds, if there are
        any."""
        whole = self.input()
        text = "%%\n".join(whole.split("%%\n")[:2])
        self.browser.click_on("input[value=values] + span")
        status, said = answer("check --settle", text)
        self.assertLessEqual(status, 1)
        lines = [line.split(" ") for line in said.splitlines()[2:]]
        self.assertIn(said, self.of("wrote"))
        words = said.splitlines()[1].split(" ")
        here = "open here" if words == ["open"] else f"settles here after {words[1]}"
        self.assertIn(here, self.of("brief"))
        if said.startswith("yes"):
            wanted = dict(line.split(" ") for line in answer("stable", text)[1].splitlines())
        else:
            wanted = {row[0]: row[2] if len(row) > 2 else "" for row in lines}
        coming = self.coming()
        self.assertEqual(
            self.numbers(), {**coming, **{int(device): SHORT.get(value, value) for device, value in wanted.items()}}
        )
        self.browser.click_on("input[value=rounds] + span")
        rounds = {int(row[0]): row[1] if len(row) > 2 else "" for row in lines}
        self.assertEqual(self.numbers(), {**coming, **rounds})
        self.browser.click_on("input[value=values] + span")
        if whole != text:
            status, said = answer("check --settle --changes", whole)
            self.assertEqual(status, 0)
            self.has_bounds(said)

    def coming(self) -> dict[int, str]:
        """The devices that aren't in the network and may come, without a number on them."""
        there = {device["id"] for device in json.loads(self.input().split("%%\n")[1])["devices"]}
        return {device: "" for device in self.numbers() if device not in there}

    def has_bounds(self, said: str) -> None:
        """The devices have the bounds and the rounds of an answer to `check --settle --changes`."""
        rows = [line.split(" ") for line in said.splitlines()[2:]]
        self.assertIn(said, self.of("wrote"))
        self.assertIn(f"bounds hold after {said.splitlines()[1].split(' ')[1]}", self.of("brief"))
        self.browser.click_on("input[value=bounds] + span")
        self.assertEqual(self.numbers(), {int(row[0]): SHORT.get(row[2], row[2]) for row in rows})
        away = self.browser.value("[...document.querySelectorAll('.away')].map((one) => Number(one.dataset.id))")
        self.assertEqual(sorted(away), [int(row[0]) for row in rows if row[-1] == "away"])
        self.browser.click_on("input[value=within] + span")
        self.assertEqual(self.numbers(), {int(row[0]): row[1] for row in rows})
        self.browser.click_on("input[value=bounds] + span")

"""The page in a browser: names, keys, colours, phones and its picture; its sources."""

from __future__ import annotations

import os
import re
import subprocess
import unittest

from helping import TOP
from opened_page import Opened

from release import page

# so many lines has a module of the page at most
MOST_LINES = 400


class Access(Opened):
    def test_the_picture_of_the_readme(self) -> None:
        """`PICTURES` in the environment draws it again."""
        self.browser.screen(1360, 800)
        self.open()
        self.browser.click_on("#paths")
        self.browser.click(*self.place(12))
        self.browser.value("scrollTo(0, 0)")
        picture = self.folder / "page.png"
        self.browser.picture(picture)
        self.assertGreater(picture.stat().st_size, 20_000)
        if "PICTURES" in os.environ:
            (TOP / "docs/pictures/page.png").write_bytes(picture.read_bytes())
        self.assertTrue((TOP / "docs/pictures/page.png").exists())

    def test_everything_has_a_name(self) -> None:
        self.browser.value("document.querySelectorAll('details').forEach((one) => { one.open = true; })")
        self.browser.click(*self.place(3))
        roles = {"button", "checkbox", "combobox", "textbox", "slider", "spinbutton", "radio", "application", "region"}
        nodes = self.browser.call("Accessibility.getFullAXTree")["nodes"]
        nodes = [node for node in nodes if not node.get("ignored") and node["role"]["value"] in roles]
        unnamed = [node["role"] for node in nodes if not node.get("name", {}).get("value")]
        self.assertEqual(unnamed, [])
        self.assertGreater(len(nodes), 40)

    def test_every_control_is_reached_by_the_tab_key(self) -> None:
        self.browser.value("document.activeElement?.blur()")
        reached = set()
        for _ in range(60):
            self.browser.press("Tab")
            reached.add(self.browser.value("document.activeElement?.id || document.activeElement?.name"))
        wanted = "program drawing example block insert tool range run paths share colours theme"
        self.assertLessEqual(set(wanted.split(" ")), reached)

    def test_colours_of_texts(self) -> None:
        """Texts and what they stand on differ by 4.5 to 1 at least, in both looks."""
        style = (page.FOLDER / "style.css").read_text()
        for block in re.findall(r":root[^{]*\{(.*?)\}", style, re.DOTALL):
            colours = dict(re.findall(r"--([\w-]+): (#[0-9a-f]{6})", block))
            inks = ("ink", "soft", "word", "number", "comment", "accent", "fault")
            pairs = [(ink, paper) for ink in inks for paper in ("paper", "panel")]
            for ink, paper in [*pairs, ("accent-ink", "accent"), ("ink", "fault-paper")]:
                self.assertGreaterEqual(contrast(colours[ink], colours[paper]), 4.5, (ink, paper))

    def test_a_phone(self) -> None:
        self.browser.screen(390, 844, 2, is_phone=True)
        self.open()
        self.assertLessEqual(self.browser.value("document.scrollingElement.scrollWidth"), 390)
        for value in ("add", "switch"):
            x, y = self.browser.middle(f"input[value={value}] + span")
            self.browser.tap(x, y)
            self.browser.until(f"document.querySelector('input[value={value}]').checked")
            self.browser.tap(*(self.free(0.9, 0.9) if value == "add" else self.place(14)))
            self.browser.until("document.querySelectorAll('.device').length === 15")
        self.settled()
        self.browser.until("document.querySelector('.device[data-id=\"14\"] .value').textContent === '0'")

    def test_a_run_on_a_phone(self) -> None:
        """The drawing and the slider are both in the window."""
        self.browser.screen(390, 844, 2, is_phone=True)
        self.open()
        self.browser.tap(*self.browser.middle("#run"))
        self.browser.until("document.getElementById('round').max === '11'")
        (_, top, _, height), (_, slider, _, rest) = self.browser.box("#drawing"), self.browser.box("#sliding")
        self.assertGreater(top, 0)
        self.assertLessEqual(top + height, slider)
        self.assertLessEqual(slider + rest, 844)
        self.browser.tap(*self.browser.where("#play"))
        self.browser.until("document.getElementById('round').value === '2'")

    def test_dark_and_light(self) -> None:
        for is_dark, wanted in ((True, "dark"), (False, "light")):
            self.browser.dark(is_dark)
            self.open()
            self.assertEqual(self.browser.value("document.documentElement.dataset.look"), wanted)
        self.choose("theme", "dark")
        self.assertEqual(self.browser.value("document.documentElement.dataset.look"), "dark")


class Sources(unittest.TestCase):
    def test_types(self) -> None:
        """The page's scripts have the types that they say."""
        done = subprocess.run(["tsc", "-p", page.FOLDER / "tsconfig.json"], capture_output=True, text=True, check=False)
        self.assertEqual((done.returncode, done.stdout), (0, ""))

    def test_lines(self) -> None:
        for file in sorted(page.FOLDER.glob("*.mjs")):
            rows = file.read_text().split("\n")
            self.assertLess(len(rows), MOST_LINES, file.name)
            self.assertEqual([row for row in rows if len(row) > 120], [], file.name)

    def test_a_page_is_the_same_each_time(self) -> None:
        bytes_of_a_module = b"\0asm\1\0\0\0"
        self.assertEqual(page.text(bytes_of_a_module), page.text(bytes_of_a_module))


def contrast(one: str, other: str) -> float:
    """How much two colours differ in lightness, as 1 to 21."""

    def lightness(colour: str) -> float:
        parts = [int(colour[at : at + 2], 16) / 255 for at in (1, 3, 5)]
        linear = [part / 12.92 if part <= 0.04045 else float(((part + 0.055) / 1.055) ** 2.4) for part in parts]
        return 0.2126 * linear[0] + 0.7152 * linear[1] + 0.0722 * linear[2] + 0.05

    light, dark = sorted((lightness(one), lightness(other)), reverse=True)
    return light / dark


if __name__ == "__main__":
    unittest.main()

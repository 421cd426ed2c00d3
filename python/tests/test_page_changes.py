"""The page in a browser: lines that say what may change, drawn and written, and bounds that hold meanwhile."""

from __future__ import annotations

import json
import subprocess
import unittest
from dataclasses import replace

import bounds_of_fc
import test_changes
from helping import HERE
from opened_page import BY_METRES, FAR_HOPS, Opened

from fieldc import Section, networks as network
from fieldc.changes import written_out
from release import page


class Changes(Opened):
    def test_of_a_device(self) -> None:
        self.browser.click(*self.place(12))
        self.press_in("inspector", "may leave")
        self.assertEqual(self.lines(), ["leave 12"])
        self.is_as_program()
        for text in ("src may change", "all its links may go"):
            self.press_in("inspector", text)
        self.assertEqual(self.lines(), ["leave 12", "set 12 src any", "unlink 12"])
        self.is_as_program()
        self.press_in("inspector", "may leave")
        self.assertEqual(self.lines(), ["set 12 src any", "unlink 12"])
        self.press_in("changing", "Remove all lines")
        self.assertEqual(self.lines(), [])
        self.assertEqual(self.numbers()[12], "5")
        self.assertTrue(self.browser.value("document.querySelector('input[value=values]').checked"))

    def test_a_device_that_may_come(self) -> None:
        self.browser.click(*self.place(6))
        self.press_in("inspector", "another may come beside it")
        self.assertEqual(self.lines(), ["join 14 any", "link 6 14 1"])
        self.is_as_program()
        self.assertIn("13 of 15 devices keep one value", self.of("verdict"))
        self.browser.drag(self.place(14), self.place(3))
        self.browser.click(*self.place(14))
        self.assertIn("Device 14, which may come", self.of("inspector"))
        while_it_changes = r"^Device 14 may come; while the network changes: \d+..10 whenever it is there$"
        self.assertRegex(self.of("told"), while_it_changes)
        self.tool("link")
        self.browser.drag(self.place(14), self.place(3))
        self.settled()
        self.assertEqual(self.lines(), ["join 14 any", "link 6 14 1", "link 3 14 1"])
        self.is_as_program()
        self.tool("remove")
        self.browser.click(*self.place(14))
        self.settled()
        self.assertEqual(self.lines(), [])
        self.is_as_program()
        self.browser.click_on("#undo")
        self.settled()
        self.assertEqual(len(self.lines()), 3)
        self.is_as_program()

    def between(self, a: int, b: int) -> tuple[float, float]:
        """The middle of a link."""
        (x, y), (u, v) = self.place(a), self.place(b)
        return (x + u) / 2, (y + v) / 2

    def test_of_a_link(self) -> None:
        self.write(BY_METRES)
        self.browser.click(*self.between(4, 9))
        self.press_in("inspector", "may go")
        self.press_in("inspector", "its weight may change")
        self.assertEqual(self.lines(), ["unlink 4 9", "link 4 9 any"])
        self.is_as_program()
        for end, number in (("least", "17"), ("greatest", "25")):
            self.browser.click_on(f"[aria-label='{end} weight of the link 4 to 9']")
            self.browser.value("document.activeElement.select()")
            self.browser.type(number)
            self.browser.press("Enter")
            self.settled()
        self.assertEqual(self.lines(), ["unlink 4 9", "link 4 9 17..25"])
        written = self.browser.value("[...document.querySelectorAll('.weights text')].map((one) => one.textContent)")
        self.assertIn("17..25", written)
        self.assertEqual(self.browser.value("document.querySelector('.may-go').getAttribute('d')").count("M"), 1)
        self.is_as_program()

    def test_a_link_that_may_come(self) -> None:
        self.tool("maybe")
        self.browser.click(*self.place(0))
        self.browser.click(*self.place(3))
        self.settled()
        self.assertEqual(self.lines(), ["link 0 3 1"])
        self.is_as_program()
        self.browser.value("document.getElementById('drawing').focus()")
        for key in ("ArrowRight", "Enter", "ArrowUp", "ArrowLeft", "ArrowLeft", "ArrowLeft", "Enter"):
            self.browser.press(key)
        self.settled()
        self.assertEqual(len(self.lines()), 2)
        self.is_as_program()
        self.tool("move")
        self.browser.click(*self.between(0, 3))
        self.assertIn("which may come", self.of("inspector"))
        self.press_in("inspector", "Remove")
        self.assertEqual(len(self.lines()), 1)
        self.is_as_program()

    def test_numbers_that_an_input_may_have(self) -> None:
        self.write("ceiling 60;\ninput temp: int 0..60;\nmain = (maxHoodLoc(nbr{sense temp}, 0), 25 < sense temp);\n")
        self.browser.click(*self.place(9))
        self.press_in("inspector", "temp may change")
        self.assertEqual(self.lines(), ["set 9 temp any"])
        for end, number in (("least", "20"), ("greatest", "26")):
            self.browser.click_on(f"[aria-label='{end} temp of device 9']")
            self.browser.value("document.activeElement.select()")
            self.browser.type(number)
            self.browser.press("Tab")
            self.settled()
        self.assertEqual(self.lines(), ["set 9 temp 20..26"])
        self.is_as_program()
        self.browser.click_on("input[value=bounds] + span")
        self.assertEqual(self.numbers()[9], "(0,any)")

    def test_networks_whose_bounds_are_known(self) -> None:
        """Bounds that were worked out apart from fc."""
        for case in (*bounds_of_fc.OTHERS, *bounds_of_fc.EXAMPLES.values()):
            if case.from_table:
                continue
            self.read("input.txt", "%%\n".join((case.program, case.network, case.changes)))
            self.settled()
            if case.changes:
                self.has_bounds(case.written)
                self.is_as_program()

    def test_buttons_for_all(self) -> None:
        self.browser.click_on("#changing summary")
        for text in ("any link may go", "any device may leave", "src may change at any device"):
            self.press_in("changing", text)
        self.assertEqual(self.lines(), ["unlink *", "leave *", "set * src any"])
        self.is_as_program()
        self.browser.click(*self.place(3))
        self.assertTrue(self.browser.value("document.querySelector('#inspector .toggle').disabled"))
        self.press_in("changing", "any device may leave")
        self.assertEqual(self.lines(), ["unlink *", "set * src any"])
        self.is_as_program()

    def test_a_wrong_line_is_marked(self) -> None:
        rows = {
            "leave 3\nunlink 3 99\n": (2, "99", "There is no device 99"),
            "\nlave 3": (2, "lave3", "can't begin with lave"),
            "set 3 src 5": (1, "5", "isn't of the input's type.*src is true or false"),
            "set 3 heat any": (1, "heat", "declares no input heat.*declares src"),
            "join 3 any": (1, "3", "is in the network already.*leave 3"),
            "join 20": (1, "join20", "has a value for each input.*join 20 any"),
            "join 20 7": (1, "7", "isn't of the input's type"),
            "link 3 4 9": (1, "9", "outside of the metric.*All links weigh 1"),
            "link 3 4 7..2": (1, "link347..2", "the wrong way round"),
            "link 3 3 1": (1, "33", "linked to itself"),
            "link 3 4": (1, "link34", "isn't complete.*link 3 5 1"),
            "unlink 0 12": (1, "012", "aren't linked"),
            "leave  3\nset src=true heat any": (2, "setsrc=trueheatany", "[nN]o input is called heat"),
            "leave 70..80": (1, "leave70..80", "[nN]o device of the network is 70..80"),
            "set src 3 any": (1, "setsrc3any", "[wW]rite set 3 src any"),
            "poke 3 1": (1, "poke31", "can't begin with poke"),
        }
        for text, (line, marked, said) in rows.items():
            with self.subTest(text):
                self.write_lines(text)
                self.assertRegex(self.of("changes-fault"), rf"^Line {line}: .*{said}")
                marks = "[...document.querySelectorAll('#changes-shown mark')].map((one) => one.textContent)"
                self.assertEqual("".join(self.browser.value(marks)).replace(" ", ""), marked)
                self.assertEqual(self.browser.value("changes.getAttribute('aria-invalid')"), "true")
                self.assertNotIn("bounds", self.of("brief"))
        self.press_in("changes-fault", "Line 1")
        chosen = self.browser.value("changes.value.slice(changes.selectionStart, changes.selectionEnd)")
        self.assertEqual(chosen, "poke 3 1")
        self.press_in("changes-fault", "Remove this line")
        self.assertEqual(self.of("changes-fault"), "")
        self.is_as_program()

    def test_lines_for_one_device(self) -> None:
        self.read("one.csv", "id,x,y\n0,1,1\n")
        rows = {
            "leave 0": "This is the only device", "join 1..1024 any": "more than 1,024 devices",
            "join 1..200 any\nlinks 0 1": "[nN]o link of the network is 0",
        }  # fmt: skip
        for text, said in rows.items():
            self.write_lines(text)
            self.assertRegex(self.of("changes-fault"), said)
        self.write_lines("join 1..200 any\n" + "".join(f"link 0 {other} 1\n" for other in range(1, 130)))
        self.assertIn("more than 128 links", self.of("changes-fault"))

    def test_lines_go_with_what_they_name(self) -> None:
        self.write_lines("leave 3\nunlink 3 8\nunlink 0 5\nset 3 src any\nlink 3 9 1\n")
        self.tool("remove")
        self.browser.click(*self.place(3))
        self.settled()
        self.assertEqual(self.lines(), ["unlink 0 5"])
        self.browser.click(*self.between(0, 5))
        self.settled()
        self.assertEqual(self.lines(), [])
        self.is_as_program()
        for count in (1, 5):
            self.browser.click_on("#undo")
            self.settled()
            self.assertEqual(len(self.lines()), count)
            self.is_as_program()

    def test_a_run_is_of_the_network_as_it_stands(self) -> None:
        self.write_lines("leave 3\njoin 20 any\nlink 20 3 1\nunlink 9\n")
        self.assertEqual(len(self.numbers()), 15)
        self.browser.click_on("#run")
        self.browser.until("document.getElementById('round').max === '11'")
        self.assertEqual(len(self.numbers()), 14)
        self.assertEqual(self.browser.value("document.querySelectorAll('.away').length"), 0)
        self.assertEqual(self.browser.value("document.querySelector('.may-go').getAttribute('d')"), "")
        self.browser.click_on("#end-run")
        self.is_as_program()

    def test_the_address_has_the_lines(self) -> None:
        self.write_lines("leave 3\nset src=false src any\n")
        self.browser.click_on("input[value=within] + span")
        seen = self.numbers()
        self.browser.click_on("#share")
        self.browser.until("document.getElementById('share').textContent !== 'Copy link'")
        self.open(str(self.browser.value("location.hash")))
        self.assertEqual(self.lines(), ["leave 3", "set src=false src any"])
        self.assertEqual(self.numbers(), seen)
        self.is_as_program()

    def test_patterns_are_those_of_fieldc(self) -> None:
        rows = [
            "leave *", "leave 3..9", "leave temp=20", "leave src=false", "set 0..1 src any", "set * temp +-2",
            "set 3 temp 2..7", "set 0 temp +-0", "set src=true temp +-60", "link 0..2 1..3 4", "link 0 2..3 any",
            "link 2 1 +-2", "links * +-1", "links 1 any", "links 0 2..7", "unlink *", "unlink 3", "unlink temp=20 *",
            "unlink 1 0", "join 7..9 any 2..4", "join 7 true 3", "leave", "set 0 temp", "link 0 1", "unlink 1 2 3",
            "poke 0 1", "set 9 x 2", "",
        ]  # fmt: skip
        scene, wanted = test_changes.NETWORK, network.declared(test_changes.PROGRAM)
        links = [list(link) for link in scene.links]
        devices = [{"id": device, "x": 0, "y": 0, "inputs": inputs} for device, inputs in scene.inputs.items()]
        given = {"program": test_changes.PROGRAM, "network": {"devices": devices, "links": links}, "rows": rows}
        file = self.folder / "patterns.json"
        file.write_text(json.dumps(given))
        words = ["node", *map(str, (HERE / "page_changes.mjs", page.FOLDER, file))]
        done = subprocess.run(words, capture_output=True, text=True, check=True)
        found: list[list[str]] = json.loads(done.stdout)
        for row, lines in zip(rows, found, strict=True):
            plain = Section("changes", "may.txt", 1, row)
            self.assertEqual(lines, written_out(plain, replace(scene, names={}), wanted).text.split("\n"), row)

    def test_any_link_of_the_largest_network(self) -> None:
        self.write(FAR_HOPS)
        self.make_largest()
        self.settled()
        with self.in_time():
            self.write_lines("unlink *\n")
            self.browser.until("document.querySelector('.may-go').getAttribute('d') !== ''")
            self.settled()
        self.is_as_program()


if __name__ == "__main__":
    unittest.main()

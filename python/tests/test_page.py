"""The page to try fc, in a browser: each feature by events as a user makes them, answers as the program's, the largest
network, and nothing that leaves the browser."""

from __future__ import annotations

import base64
import json
import re
import subprocess
import unittest
from typing import Any

import test_stack
import wrong_inputs
from browsing import CONTROL, SHIFT
from deep_programs import programs
from helping import EXAMPLES, HERE
from opened_page import ANSWERED, BY_METRES, FAR_HOPS, Opened, answer
from test_embedded import Given, read_cases

from fieldc import networks as network
from release import page

# conformance cases with more bytes than this may take more stack than a worker has
LONG = 8000
CASES = """(async () => {{
    const differing = [];
    for (const {{words, input, status, text}} of {rows}) {{
        const bytes = Uint8Array.from(atob(input), (sign) => sign.charCodeAt(0));
        const said = await fc(words, bytes).catch((error) => ({{status: -1, text: String(error)}}));
        const isSame = said.status === status && said.text === text;
        if (!isSame) differing.push([words, input.slice(0, 40), said.status, said.text.slice(0, 60)]);
    }}
    return differing;
}})()"""
SECTION = page.BLOCKS.read_text().partition("\n## The blocks\n")[2].partition("\n## ")[0]
EMPTY = "Yes \u00b7 the network is empty"
OF_RUN = "document.getElementById('round-out').textContent.split(' of ')[1]"


class Program(Opened):
    def test_the_first_example_is_answered(self) -> None:
        self.assertEqual(self.of("brief"), "Yes, 22 rounds \u00b7 settles here after 11")
        self.is_as_program()

    def test_each_example(self) -> None:
        for name, _ in page.EXAMPLES:
            with self.subTest(name):
                self.choose("example", name)
                self.settled()
                self.is_as_program()

    def test_answers_come_while_one_types(self) -> None:
        self.browser.value("program.focus()")
        self.browser.value("program.setSelectionRange(...[2, 3].map((by) => program.value.indexOf('+ 1') + by))")
        self.browser.press("2")
        self.browser.until("/\\+ 2/.test(program.value)")
        self.settled()
        self.is_as_program()
        self.assertEqual(self.of("fault"), "")

    def test_a_mistake_is_marked_where_it_is(self) -> None:
        rows = {
            "ceiling 10;\nmain = 1 +\n  true;\n": ("Line 2, column 8", "1 +\n  true", "types don't fit"),
            "ceiling 10;\nmain = 1 == 2;\n": ("Line 2, column 11", "=", "a syntax error here"),
            "ceiling 10;\nmain = 1 > 2;\n": ("Line 2, column 10", ">", "isn't in the language"),
            "ceiling 10;\nmain = hop(1, 2);\n": ("Line 2, column 8", "hop", "did you mean"),
            "ceiling 10;\nmain = maxHood(nbr{1});\n": ("Line 2, column 8", "maxHood", "did you mean maxHoodLoc"),
            "language 2; ceiling 10;\nmain = 1 + hops(3, 2);\n": (
                "Line 2, column 17", "3", "types don't fit.*The block is hops(source: bool, far: int): int.",
            ),
            "language 2; ceiling 10;\nmain = fadingMax(3);\n": (
                "Line 2, column 8", "fadingMax(3)", "as many arguments.*The block is fadingMax(value: int, top: int)",
            ),
            "ceiling 10; input src: bool;\nmain = rep(1){(x) => maxHoodLoc(nbr{x}, 1)};\n": (
                "Line 2, column 8", "rep(1){(x) => maxHoodLoc(nbr{x}, 1)}", "isn't of a form that is known to settle",
            ),
        }  # fmt: skip
        for text, (place, marked, said) in rows.items():
            with self.subTest(text):
                self.write(text)
                self.browser.until(f"document.getElementById('fault').textContent.includes({json.dumps(place)})")
                for part in said.split(".*"):
                    self.assertIn(part, self.of("fault"))
                self.assertEqual(self.of("brief") == "Not a program yet", "known to settle" not in said)
                self.assertIn(place if "known to settle" not in said else "No", self.of("verdict"))
                marks = "[...document.querySelectorAll('#shown mark')].map((one) => one.textContent)"
                found = self.browser.value(marks)
                self.assertEqual("".join(found), marked.replace("\n", ""))
                self.browser.click_on("#fault button")
                chosen = self.browser.value("program.value.slice(program.selectionStart, program.selectionEnd)")
                self.assertEqual(chosen, marked)

    def test_habits_of_other_languages_are_answered(self) -> None:
        rows = {
            "main = 1;": "Begin with ceiling 10;", "ceiling 10\nmain = 1;": "A ; is missing",
            "ceiling 10;\ninput t: int;\nmain = 1;": "input name: int 0..9;",
            "ceiling 10;\ndef f(a) = 1;\nmain = 1;": "def name(a: int", "ceiling 10;\nmain = 1.5;": "are whole",
            "ceiling 10;\nmain = 1 <= 2;": "not (b < a) for a <= b", "ceiling 10;\nmain = 1 == 2;": "a = b for a == b",
            "ceiling 10;\nmain = 1 >= 2;": "not (a < b) for a >= b", "ceiling 10;\nmain = 1 > 2;": "b < a for a > b",
            "ceiling 10;\nmain = 1 != 2;": "not (a = b)", "ceiling 10;\nmain = !true;": "not a for !a",
            "ceiling 10;\nmain = true && true;": "a and b for", "ceiling 10;\nmain = -1;": "nothing below 0",
            "ceiling 10;\nmain = if (true) {1} else {2};": "no else", "ceiling 10;\nmain = if (true) 1;": "in braces",
            "ceiling 10;\nmain = let x = 1; x;": "x = a in b", "ceiling 10;\nmain = sumHood(nbr(1));": "nbr{a}",
            "ceiling 10;\nmain = 1 + ;": "Each declaration ends",
            "ceiling 10;\nmain = max(nbr{uid});": "Of neighbours: minHoodLoc",
            "ceiling 10;\nmain = maxHoodLoc(nbr{uid});": "There are two to compare",
            "ceiling 10;\nmain = 1": "A ; is missing", "ceiling 10;\nmain = (1 + 2;": "bracket is still open",
            "ceiling 10;\nmain = min(1, (2": "bracket is still open",
            "ceiling 10;\nhot = true;\nmain = hot;": "def hot(): bool",
            "ceiling 10;\nmain = 1;\n2": "Nothing stands behind",
        }  # fmt: skip
        for text, said in rows.items():
            with self.subTest(text):
                self.write(text)
                self.browser.until(f"document.getElementById('fault').textContent.includes({json.dumps(said)})")

    def test_the_forms_of_the_language_are_those_that_fc_takes(self) -> None:
        """What the page offers to try as a `main` gets a yes."""
        tried = self.browser.value("[...document.querySelectorAll('#language p code')].map((one) => one.textContent)")
        for expression in tried[1:]:
            self.write(f"ceiling 10;\ninput src: bool;\nmain = {expression};\n")
            self.assertIn("Yes", self.of("brief"), expression)
        self.assertEqual(len(tried), 4)

    def test_a_program_without_a_network_is_answered(self) -> None:
        """The verdict is the one that the program has on one device, and on 1,024."""
        self.choose("example", "empty")
        self.browser.until(f"document.getElementById('brief').textContent === {json.dumps(EMPTY)}")
        heads = "ceiling 1000; input src: bool;\nmain = heads(uid);\n"
        for text in ("ceiling 10; input src: bool;\nmain = anyHood(nbr{sense src});\n", FAR_HOPS, heads):
            self.write("language 2; " + text)
            self.browser.until(f"document.getElementById('brief').textContent === {json.dumps(EMPTY)}")
            program = self.input().split("%%\n")[0]
            for count in (1, 1024):
                devices = [{"id": device, "inputs": {"src": False}} for device in range(count)]
                status, said = answer("check", f"{program}%%\n{json.dumps({'devices': devices, 'links': []})}\n")
                self.assertEqual(status, 0)
                self.assertIn(said, self.of("wrote"))
                rounds = f"{int(said.split()[1]):,}"
                self.assertRegex(self.of("verdict"), rf"[Aa]fter {rounds} .*on (one device|1,024 devices)")
            self.assertIn("has no devices yet", self.of("verdict"))
        self.write("ceiling 10; input src: bool;\nmain = rep(1){(x) => maxHoodLoc(nbr{x}, 1)};\n")
        self.browser.until("document.getElementById('brief').textContent.startsWith('No ')")
        self.assertIn("isn't of a form that is known to settle", self.of("fault"))
        self.assertTrue(self.browser.value("document.getElementById('run').disabled"))

    def test_an_empty_network_is_begun_by_a_click(self) -> None:
        self.choose("example", "empty")
        self.browser.until(f"document.getElementById('brief').textContent === {json.dumps(EMPTY)}")
        for x in (0.4, 0.6):
            self.browser.click(*self.free(x, 0.5))
        self.settled()
        self.is_as_program()
        self.assertEqual(self.of("size"), "2 devices, 1 link")

    def test_blocks_are_put_in_front(self) -> None:
        self.write("language 2; ceiling 100; input src: bool;\nmain = ")
        self.browser.press("End", CONTROL)
        self.choose("block", "hops")
        self.browser.click_on("#insert")
        self.browser.until("/main = hops\\(source, far\\)/.test(program.value)")
        self.assertIn("how many hops away", self.of("about-block"))
        self.assertIn("hops(source: bool, far: int): int", self.of("about-block"))
        # the arguments are chosen, to be written over
        self.browser.type("sense src, 20")
        self.browser.until("/main = hops\\(sense src, 20\\)$/.test(program.value)")
        self.write("language 2; ceiling 100; input src: bool;\nmain = let p = hops(sense src, 20) in (p, parent(p));\n")
        self.assertEqual(self.of("blocks-count"), "2 blocks put in front: hops, parent")
        self.is_as_program()

    def test_blocks_are_in_the_groups_of_their_page(self) -> None:
        shown = self.browser.value(
            "[...document.querySelectorAll('#block optgroup')].map((one) => "
            "[one.label, [...one.children].map((option) => option.value)])"
        )
        wanted: dict[str, list[str]] = {}
        for name, group in page.groups().items():
            wanted.setdefault(group, []).append(name)
        self.assertEqual(dict(shown), wanted)
        self.assertEqual([group for group, _ in shown], re.findall(r"^### (.*)$", SECTION, re.MULTILINE))

    def test_the_language_of_a_block_is_put_in_front(self) -> None:
        self.browser.click_on("#program")
        self.browser.value("program.select()")
        self.browser.type("ceiling 100; input src: bool;\nmain = hops(sense src, 20);\n")
        self.browser.until("/needs language 2/.test(document.getElementById('fault').textContent)")
        self.browser.click_on("#fault button:last-of-type")
        self.settled()
        self.assertTrue(self.browser.value("program.value.startsWith('language 2;')"))

    def test_standard_layout(self) -> None:
        text = "ceiling 010;main=1+(2);"
        self.write(text)
        self.browser.click_on("#format")
        self.browser.until(f"program.value === {json.dumps(answer('format', text)[1])}")

    def test_a_place_is_where_it_is_in_the_tables_of_wrong_inputs(self) -> None:
        """The page finds the line of each wrong program that `fieldc` finds."""
        rows = [
            {"program": case.texts.get("program", wrong_inputs.HOPS), "line": case.line, "wanted": case.at[1]}
            for _, case in wrong_inputs.all_cases() if case.at and case.at[0] == "program" and case.line != "no walks"
        ]  # fmt: skip
        file = self.folder / "rows.json"
        file.write_text(json.dumps(rows))
        words = ["node", *map(str, (HERE / "page_places.mjs", page.FOLDER, file))]
        done = subprocess.run(words, capture_output=True, text=True, check=True)
        self.assertEqual(done.stdout, f"{len(rows)} passed, 0 failed\n")
        self.assertGreater(len(rows), 150)


class Network(Opened):
    def count(self) -> tuple[int, int]:
        """How many devices and links are told of."""
        devices, links = re.findall(r"(\d[\d,]*) ", self.of("size"))
        return int(devices.replace(",", "")), int(links.replace(",", ""))

    def test_drawing_by_hand(self) -> None:
        self.assertEqual(self.count(), (14, 25))
        self.tool("add")
        self.browser.click(*self.free(0.9, 0.9))
        self.assertEqual(self.count()[0], 15)
        self.settled()
        self.assertIn(14, self.numbers())
        self.tool("move")
        before = self.place(14)
        self.browser.drag(before, self.free(0.6, 0.9))
        self.assertLess(self.place(14)[0], before[0] - 100)
        self.tool("switch")
        self.browser.click(*self.place(14))
        self.settled()
        self.assertEqual(self.numbers()[14], "0")
        self.is_as_program()
        self.tool("link")
        links = self.count()[1]
        self.browser.click(*self.place(0))
        self.browser.click(*self.place(3))
        self.assertEqual(self.count()[1], links + 1)
        self.assertIn("by hand now", self.of("told"))
        self.browser.drag(self.place(12), self.place(0))
        self.assertEqual(self.count()[1], links + 2)
        self.settled()
        self.is_as_program()
        self.tool("remove")
        self.browser.click(*self.place(14))
        self.assertEqual(self.count()[0], 14)
        self.browser.click_on("#undo")
        self.assertEqual(self.count()[0], 15)
        self.settled()
        self.is_as_program()

    def test_drawing_by_keys(self) -> None:
        self.browser.value("document.getElementById('drawing').focus()")
        self.browser.press("ArrowRight")
        self.assertRegex(self.of("told"), r"^Device \d+; src .*final value")
        self.browser.press("ArrowLeft")
        self.browser.press("+")
        self.assertEqual(self.count()[0], 15)
        near = [abs(complex(*self.place(14)) - complex(*self.place(device))) for device in range(14)]
        self.assertGreater(min(near), 2 * self.browser.box(".device .body")[2] / 2)
        where = self.place(14)
        self.browser.press("ArrowDown", SHIFT)
        self.assertGreater(self.place(14)[1], where[1])
        self.browser.value("document.querySelector('input[value=move]').focus()")
        for _ in range(3):
            self.browser.press("ArrowRight")
        self.browser.value("document.getElementById('drawing').focus()")
        self.browser.press("Enter")
        self.settled()
        self.assertEqual(self.numbers()[14], "0")
        self.browser.press("Delete")
        self.assertEqual(self.count()[0], 14)
        self.browser.press("z", CONTROL)
        self.assertEqual(self.count()[0], 15)
        self.settled()
        self.is_as_program()

    def test_a_network_by_keys_alone(self) -> None:
        """Devices that are added one after the other are a chain, in which none covers another."""
        self.choose("example", "empty")
        self.browser.value("document.getElementById('drawing').focus()")
        for _ in range(4):
            self.browser.press("+")
        self.settled()
        self.assertEqual(self.count(), (4, 3))
        self.is_as_program()

    def test_an_input_that_is_a_number(self) -> None:
        """The greatest is offered; what is set stands below the device, and in the legend."""
        self.write("ceiling 50;\ninput heat: int 3..40;\nmain = sense heat;\n")
        self.tool("switch")
        self.assertEqual(self.browser.value("document.getElementById('amount').value"), "40")
        self.browser.click(*self.place(7))
        self.browser.value("document.getElementById('amount').select()")
        self.browser.click_on("#amount")
        self.browser.value("document.getElementById('amount').select()")
        self.browser.type("5")
        self.browser.click(*self.place(2))
        self.settled()
        shown = self.browser.value(
            "[...document.querySelectorAll('.device')].map((one) => "
            "[one.dataset.id, one.querySelector('.sensed').textContent]).filter(([_, text]) => text)"
        )
        self.assertEqual(sorted(shown), [["2", "5"], ["7", "40"]])
        self.assertIn("below a device: heat", self.of("legend"))
        self.is_as_program()

    def test_range_and_inputs_of_a_device(self) -> None:
        links = self.count()[1]
        self.browser.value("document.getElementById('range').focus()")
        for _ in range(12):
            self.browser.press("ArrowRight")
        self.assertGreater(self.count()[1], links)
        self.browser.click(*self.place(7))
        self.browser.click_on("#inspector input[type=checkbox]")
        self.settled()
        self.assertEqual(self.numbers()[7], "0")
        self.browser.value("document.getElementById('devices-part').open = true")
        self.browser.click_on("#table tr:nth-child(8) input[type=checkbox]")
        self.settled()
        self.assertNotEqual(self.numbers()[7], "0")
        self.is_as_program()

    def test_weights(self) -> None:
        self.write(BY_METRES)
        self.assertGreater(self.browser.value("document.querySelectorAll('.weights text').length"), 20)
        self.is_as_program()
        self.assertRegex(self.input(), r"\[0, ?5, ?[1-9][0-9]\]")

    def make(self, shape: str, count: int) -> None:
        """Makes a network of a shape."""
        self.browser.value("document.getElementById('making').open = true")
        self.choose("shape", shape)
        self.browser.click_on("#count")
        self.browser.value("document.getElementById('count').select()")
        self.browser.type(str(count))
        self.browser.click_on("#make button")
        self.settled()

    def test_networks_that_are_made(self) -> None:
        for shape, links in (("grid", 38), ("line", 23), ("ring", 24), ("random", 30)):
            self.make(shape, 24)
            self.assertEqual(self.count()[0], 24)
            if shape == "random":
                self.assertGreater(self.count()[1], links)
            else:
                self.assertEqual(self.count()[1], links, shape)
            self.is_as_program()

    def test_files_in_and_out(self) -> None:
        self.read("net.json", network.grid(4, 3).scene())
        self.assertEqual(self.count(), (12, 17))
        self.settled()
        rows = [f"{d},{d % 4},{d // 4},{str(d == 5).lower()}\n" for d in range(12)]
        self.read("at.csv", "id,x,y,src\n" + "".join(rows))
        self.assertEqual(self.count(), (12, 17))
        self.settled()
        self.assertEqual(self.numbers()[5], "0")
        self.is_as_program()
        self.read("other.csv", "id,x,y\n1,0,0\n2,1,0\n")
        self.assertEqual(self.count()[0], 2)
        self.settled()
        self.read("input.txt", (EXAMPLES / "hop_count_line.txt").read_text())
        self.settled()
        self.assertEqual(self.count(), (3, 2))
        self.assertEqual(self.of("brief"), "Yes, 22 rounds \u00b7 settles here after 5")
        self.is_as_program()

    def test_files_that_cant_be_read(self) -> None:
        rows = {
            "id,x\n1,2\n": "line 1: .*y is missing",
            "id,x,y\n1,2,3\n1,5,6\n": "line 3: device 1 is in a line above",
            "id,x,y\n1,2\n": "line 2: it has 2 cells",
            "id,x,y,src\n1,2,3,maybe\n": "line 2: \"maybe\" isn't a whole number",
            "id,x,y\n70000,2,3\n": "line 2: id is 70000",
            '{"devices": [], "links": 3}': "doesn't have the lists devices and links",
            '{"devices": [{"id": 0}], "links": [[0, 4, 1]]}': "/links/0 links 0 and 4",
            '{"devices": [': "it isn't JSON",
        }
        for text, said in rows.items():
            self.read("wrong.csv", text)
            self.assertRegex(self.of("notice"), said)
            self.assertEqual(self.count(), (14, 25))

    def test_the_largest_network(self) -> None:
        with self.in_time():
            self.write(FAR_HOPS)
            self.make_largest()
            self.browser.until("document.querySelectorAll('.device').length === 1024")
            self.browser.until(
                f"{ANSWERED} && document.getElementById('size').textContent.startsWith('1,024') && "
                "document.querySelector('.device .value').textContent !== ''"
            )
        self.is_as_program()


class Answers(Opened):
    def test_cheapest_paths(self) -> None:
        self.browser.click_on("#paths")
        self.browser.click(*self.place(12))
        walks = {line.split(" ")[0]: line.split(" ")[2:] for line in answer("trace", self.input())[1].splitlines()[1:]}
        self.assertIn(" \u2192 ".join(walks["12"]), self.of("inspector"))
        stretches = self.browser.value("document.querySelector('.path').getAttribute('d').match(/M/g).length")
        self.assertEqual(stretches, len(walks["12"]) - 1)

    def test_a_run_from_rubbish(self) -> None:
        self.browser.click_on("#run")
        self.browser.until("document.getElementById('round').max === '11'")
        self.assertRegex(self.of("right"), "^At the start: [0-9] of 14")
        self.assertEqual("10, the ceiling" in self.of("legend"), "10" in self.numbers().values())
        self.assertGreater(self.browser.value("document.querySelectorAll('.wrong').length"), 4)
        self.browser.value("document.getElementById('round').focus()")
        self.browser.press("ArrowRight")
        self.assertIn("After 1 round:", self.of("right"))
        self.browser.press("End")
        self.assertEqual(self.of("right"), "After 11 rounds: 14 of 14 devices hold their final value.")
        self.assertEqual(self.browser.value("document.querySelectorAll('.wrong').length"), 0)
        self.browser.click_on("#play")
        self.browser.until("document.getElementById('round').value === '2'")
        self.browser.click_on("#play")
        self.browser.click_on("#end-run")
        self.is_as_program()

    def test_a_run_shows_values_alone(self) -> None:
        lit = "document.querySelector('input[name=colours]:checked').value"
        self.browser.click_on("input[value=rounds] + span")
        self.assertEqual(self.browser.value(lit), "rounds")
        self.browser.click_on("#run")
        self.browser.until("!document.getElementById('sliding').hidden")
        self.assertEqual(self.browser.value(lit), "values")
        self.assertTrue(self.browser.value("document.getElementById('colouring').disabled"))
        self.browser.click_on("#end-run")
        self.assertEqual(self.browser.value(lit), "rounds")
        self.assertFalse(self.browser.value("document.getElementById('colouring').disabled"))

    def test_runs_of_all_examples_end_at_final_values(self) -> None:
        for name, _ in page.EXAMPLES:
            self.choose("example", name)
            self.settled()
            self.browser.click_on("#run")
            rounds = self.browser.value("Number(document.getElementById('brief').textContent.match(/after (\\d+)/)[1])")
            self.browser.until(f"document.getElementById('round').max === '{rounds}'")
            self.browser.value("document.getElementById('round').focus()")
            self.browser.press("End")
            self.assertRegex(self.of("right"), r"(\d+) of \1 devices", name)

    def test_the_state_is_in_the_address(self) -> None:
        self.tool("add")
        self.browser.click(*self.free(0.9, 0.9))
        self.settled()
        self.browser.click_on("#run")
        self.browser.until(f"document.getElementById('round').max === {OF_RUN}")
        self.browser.value("document.getElementById('round').focus()")
        for _ in range(2):
            self.browser.press("ArrowRight")
        seen = self.numbers()
        self.browser.click_on("#share")
        self.browser.until("document.getElementById('share').textContent !== 'Copy link'")
        address = str(self.browser.value("location.hash"))
        self.open(address)
        self.browser.until("document.getElementById('round').value === '2'")
        self.browser.until("!document.getElementById('sliding').hidden")
        self.assertEqual(self.numbers(), seen)
        for wrong in ("#1.x", "#1.q1YqSy1SslIqzs8FAA", "#nonsense"):
            self.open(wrong)
            self.assertIn("no state that this page can read", self.of("notice"))
            self.assertEqual(self.of("brief"), "Yes, 22 rounds \u00b7 settles here after 11")

    def test_a_link_from_another_place(self) -> None:
        """A link is opened wherever the file is; a wrong one changes nothing."""
        self.write("ceiling 7;\nmain = 7;\n")
        self.browser.click_on("#share")
        self.browser.until("!document.getElementById('shared').hidden")
        self.assertIn("send the file too", self.of("shared"))
        link = str(self.browser.value("location.href")).replace("file:///", "file:///elsewhere/")
        self.open()
        for wrong in ("nonsense", link[:-30]):
            self.browser.click_on("#link")
            self.browser.value("document.getElementById('link').select()")
            self.browser.type(wrong)
            self.browser.press("Enter")
            self.browser.until("/no state that this page can read/.test(document.getElementById('notice').textContent)")
            self.assertIn("sense src", self.browser.value("program.value"))
        self.browser.click_on("#link")
        self.browser.value("document.getElementById('link').select()")
        self.browser.type(link)
        self.browser.press("Enter")
        self.browser.until("program.value === 'ceiling 7;\\nmain = 7;\\n'")
        self.settled()
        self.assertTrue(self.browser.value("document.getElementById('notice').hidden"))
        self.is_as_program()
        self.browser.click_on("#undo")
        self.browser.until("program.value.includes('sense src')")

    def test_an_example_is_chosen_again(self) -> None:
        chosen = "document.getElementById('example').selectedOptions[0].textContent"
        self.assertEqual(self.browser.value(chosen), "Hop count")
        self.write("ceiling 7;\nmain = 7;\n")
        self.assertEqual(self.browser.value(chosen), "your own")
        self.choose("example", "")
        self.browser.until("program.value.includes('sense src')")
        self.assertEqual(self.browser.value(chosen), "Hop count")
        self.settled()
        self.is_as_program()

    def differing(self, cases: list[Given]) -> list[Any]:
        """The conformance cases that the page answers otherwise: their words, their inputs, and the answers."""
        rows = [
            {
                "words": case.words, "input": base64.b64encode(case.input).decode(), "status": case.status,
                "text": case.text.decode(),
            } for case in cases
        ]  # fmt: skip
        found: list[Any] = []
        while rows:
            some, rows = rows[:40], rows[40:]
            found += self.browser.value(CASES.format(rows=json.dumps(some)))
        return found

    def test_all_conformance_cases(self) -> None:
        cases = read_cases()
        self.assertEqual(self.differing(cases), [])
        self.assertGreater(len(cases), 500)

    def test_the_deepest_programs(self) -> None:
        cases = []
        for program in programs().values():
            text = program + test_stack.NETWORK
            for words in ("check --settle", "stable", "trace"):
                status, said = answer(words, text)
                cases.append(Given(words, text.encode(), status, said.encode()))
        self.assertEqual(self.differing(cases), [])

    def test_deep_cases_where_calls_have_no_stack_of_their_own(self) -> None:
        """A worker of a browser that can't suspend calls has less stack than some programs take: then the page works
        out the verdict alone, and says so."""
        file = self.folder / "older.html"
        file.write_text(self.file.read_text().replace("WebAssembly.promising", "WebAssembly.unknown"))
        self.browser.open(file)
        self.settled()
        long = [case for case in read_cases() if len(case.input) > LONG]
        differing = self.differing(long)
        self.assertEqual(differing, [])
        self.assertGreater(len(long), 20)
        self.write(f"ceiling 10; input src: bool;\nmain = {'not ' * 2000}sense src;\n")
        self.browser.until("document.getElementById('brief').textContent === 'The verdict alone'")
        self.assertRegex(self.of("verdict"), "^Yes: it settles after 1 round.*too little stack.*newer browser")
        self.assertTrue(self.browser.value("document.getElementById('run').disabled"))


if __name__ == "__main__":
    unittest.main()

"""Refusals that point the way: words of other languages, names, binary files, what isn't fc, limits before work."""

from __future__ import annotations

import json
import os
import signal
import subprocess
import time
import unittest
from pathlib import Path

from helping import HOPS, LINE, TOP, Done, fieldc, fixed_work, needs, needs_fc, used
from test_files import InFolder

from fieldc import Fault, networks

RELAYS = """ceiling 20; input low: bool; input src: bool;
main = rep(20){(d) => minHoodLoc(mux(nbr{sense low}, 9, nbr{d} + 1), mux(sense src, 0, 20))};
"""
STEPS = RELAYS.replace("mux(nbr{sense low}, 9, nbr{d} + 1)", "nbr{d} + mux(nbr{sense low}, 20, 1)")
LOW = LINE.replace('"src"', '"low":false,"src"')


class Programs(InFolder):
    def composed(self, text: str) -> str:
        """What is said of a program that can't be composed."""
        done = fieldc("compose", "--unjudged", self.file(text, "mine.fc"))
        self.assertEqual((done.status, done.output), (3, ""), text)
        return done.errors

    def test_words_that_look_like_calls(self) -> None:
        said = self.composed("ceiling 10; input s: bool;\nmain = if (sense s) then (1) else (2);\n")
        self.assertIn("mine.fc:2:21: `then` isn't a word of the language.", said)
        self.assertIn("There is no `then` or `else`: write `if (c) {a} {b}`", said)
        self.assertNotIn("no block", said)
        said = self.composed("ceiling 9; main = mid();")
        self.assertIn("no block is called mid. The number of the device is `uid`.", said)
        self.assertIn("no block is called hopz; the nearest: hops", self.composed("ceiling 9; main = hopz(true, 3);"))
        said = self.composed("ceiling 9; main = avgHood(nbr{1});")
        self.assertIn("`div(a + sumHood(nbr{a}), 1 + sumHood(nbr{1}))`; over the whole network", said)
        self.assertIn("the block `mean(sink, far, value)`", said)

    @needs_fc
    def test_division_has_a_block(self) -> None:
        for command in ("compose", "format"):
            done = fieldc(command, self.file("ceiling 10; main = 4 / 2;", "mine.fc"))
            self.assertIn("The block `div(a, b)` divides; `fieldc compose` adds it.", done.errors)
        done = fieldc("compose", self.file("ceiling 10; main = div(4, 2);", "mine.fc"))
        self.assertEqual(done.status, 0)

    @needs_fc
    def test_who_doesnt_relay_chooses_the_step(self) -> None:
        scene = self.file(LOW, "low.json")
        done = fieldc("check", self.file(RELAYS, "relays.fc"), scene)
        self.assertEqual((done.status, done.output), (1, "no 0 no-growth\n"))
        self.assertIn("Choose the step in its place: `nbr{d} + mux(nbr{sense low}, 20, 1)`.", done.errors)
        self.assertEqual(fieldc("check", self.file(STEPS, "steps.fc"), scene).output, "yes 42\n")

    def test_wrong_words_are_one_line(self) -> None:
        numbers = (("run", "x", "--workers", "two"), ("gen", "x"), ("network", "--line", "0"))
        for words in (*numbers, ("chek",), ("check",)):
            done = fieldc(*words)
            self.assertEqual((done.status, done.output, done.errors.count("\n")), (2, "", 1), words)
            self.assertIn("--help", done.errors)


class Networks(InFolder):
    def test_where_a_scene_is_wrong(self) -> None:
        device = '{"id": 0, "inputs": {"src": true}}'
        rows = {
            '{"devices": [%s],}' % device: r"scene.json isn't a scene: line 1, column \d+ isn't JSON",
            "ceiling 10;\n%%\n[1,\n 2": "scene.json isn't a scene: line 4, column 3 isn't JSON",
            "[1]": 'a network is an object with the members "devices" and "links"',
            '{"devices": [], "links": []}': "/devices is empty",
            '{"devices": [%s], "links": [], "nodes": 3}' % device: "/nodes isn't a member of a network",
            '{"devices": [%s, {"id": 1}], "links": []}' % device: '/devices/1: a device is {"id": NUMBER',
            '{"devices": [%s, %s], "links": []}' % (device, device): "/devices/1/id: 0 isn't the number of a device",
            '{"devices": [%s], "links": [[0, 7, 1]]}' % device: "/links/0: there is no device 7",
            '{"devices": [%s], "links": [[0, 0]]}' % device: r"/links/0: a link is \[DEVICE, DEVICE, WEIGHT\]",
            '{"devices": [%s], "links": []}' % device.replace("true", "-1.5"): "/devices/0/inputs/src: -1.5 is neither",
        }
        for text, says in rows.items():
            done = fieldc("network", "--scene", self.file(text, "scene.json"))
            self.assertEqual((done.status, done.output), (3, ""), text)
            self.assertRegex(done.errors, says)

    def test_json_of_any_depth(self) -> None:
        for text in ("[" * 200_000, '{"devices":' * 100_000, "9" * 5_000):
            with self.assertRaises(Fault):
                networks.read_scene(text)
        done = fieldc("network", "--scene", self.file("[" * 200_000, "deep.json"))
        self.assertEqual((done.status, done.errors.count("\n")), (3, 1))
        self.assertIn("deep.json isn't a scene: objects and arrays are nested too deeply", done.errors)

    def test_names_beside_a_scene(self) -> None:
        points = self.file("name,x,y\nmill,0,0\nweir,1,0\n", "points.csv")
        done = fieldc("network", "--points", points, "--range", 2, "-o", "net.json", folder=self.folder)
        self.assertEqual(done.status, 0)
        done = fieldc("network", "--scene", "net.json", "--set", "src=true@weir", "-o", "set.json", folder=self.folder)
        self.assertEqual(done.status, 0, done.errors)
        made = json.loads((self.folder / "set.json").read_text())
        self.assertEqual([one["inputs"]["src"] for one in made["devices"]], [False, True])
        self.assertEqual((self.folder / "set.names.csv").read_text(), "id,name\n0,mill\n1,weir\n")
        done = fieldc("network", "--scene", "net.json", "--set", "src=true@roof", folder=self.folder)
        self.assertIn("there is no device roof; the devices are called mill, weir", done.errors)

    def test_limits_before_work(self) -> None:
        unit = fixed_work()
        for words in (("--line", 50_000_000), ("--ring", 2_000), ("--grid", "100000x100000"), ("--torus", "40x40")):
            done: list[Done] = []
            took = used(lambda: done.append(fieldc("network", *words)))
            self.assertEqual((done[0].status, done[0].output), (4, ""), words)
            self.assertIn("devices, but fc takes 1 to 1,024", done[0].errors)
            self.assertLess(took / unit, 5, f"{took:.1f} s, and {unit:.1f} s for the fixed work")


class Files(InFolder):
    def test_binary_files_are_said_to_be_binary(self) -> None:
        Path(self.folder / "photo.png").write_bytes(b"\x89PNG\r\n\x1a\n\0\0\0\rIHDR")
        Path(self.folder / "wide.fc").write_bytes("ceiling 10; main = 3;".encode("utf-16"))
        for words in (("check", "photo.png"), ("network", "--scene"), ("compose",)):
            done = fieldc(*words, "photo.png", folder=self.folder)
            self.assertEqual((done.status, done.output), (3, ""), words)
            self.assertIn("photo.png is a binary file, not text: byte 8 is zero", done.errors)
        self.assertIn("wide.fc is in UTF-16: save it as UTF-8", fieldc("format", "wide.fc", folder=self.folder).errors)

    @needs_fc
    def test_names_in_scripts(self) -> None:
        program, scene = self.file(HOPS, "hops.fc"), self.file(LINE, "line.json")
        for line in ("set mill src true", "link 0 mill 1", "leave mill", "mix 3 set mill src true"):
            done = fieldc("run", program, scene, self.file(line + "\n", "script.txt"))
            self.assertEqual((done.status, done.output), (3, ""), line)
            self.assertIn("Devices have their numbers here: the file of names beside the network", done.errors)
        done = fieldc("run", program, scene, self.file("run ten\n", "script.txt"))
        self.assertNotIn("Devices have their numbers", done.errors)

    @needs_fc
    def test_names_in_scripts_beside_a_file_of_names(self) -> None:
        files = self.file(HOPS, "hops.fc"), self.file(LINE, "line.json")
        names = ("--names", self.file("id,name\n0,gate\n2,mill\n", "names.csv"))
        script = self.file("set mill src true\nunlink 1 mill\nmix 22 link gate mill 1\nshow\n", "script.txt")
        done = fieldc("run", *files, script, *names)
        self.assertEqual((done.status, done.output), (0, "yes 22\n@4\ngate 0\n1 1\nmill 0\n"), done.errors)
        both = self.file(f"{LINE}%%\nset roof src true\n", "both.txt")
        done = fieldc("run", files[0], both, *names)
        self.assertEqual((done.status, done.output), (3, ""))
        self.assertIn("both.txt line 3: no device is called roof\n", done.errors)
        done = fieldc("run", *files, self.file("run 1\nleave mil\n", "script.txt"), *names)
        self.assertIn("script.txt line 2: no device is called mil; did you mean mill?", done.errors)
        done = fieldc("run", *files, self.file("run 1\nmix 3 set mill scr true\n", "script.txt"), *names)
        self.assertIn("script.txt:2:16: The program declares no input named `scr`.", done.errors)
        self.assertIn("    mix 3 set mill scr true\n                   ^\n", done.errors)

    @needs_fc
    def test_values_that_are_devices_have_their_names(self) -> None:
        program = "ceiling 10; input src: bool; main = (mux(sense src, 7, uid), (uid, sense src));"
        files = self.file(program, "own.fc"), self.file(LINE, "line.json")
        names = ("--names", self.file("id,name\n0,gate\n2,mill\n", "names.csv"))
        for words, wanted in (
            (("stable", "--kinds", "all"), "gate (7,(gate,true))\n1 (1,(1,false))\nmill (mill,(mill,false))\n"),
            (("stable", "--kinds", "2"), "gate (7,(gate,true))\n1 (1,(1,false))\nmill (2,(mill,false))\n"),
            (("settle", "--kinds", "1,2"), "gate 1 (7,(gate,true))\n1 1 (1,(1,false))\nmill 1 (mill,(mill,false))\n"),
            (("stable", "--kinds", "2", "--csv"), "0,gate,7,gate,true\n1,,1,1,false\n2,mill,2,mill,false\n"),
        ):
            done = fieldc(words[0], *files, *words[1:], *names)
            self.assertEqual((done.status, done.output.endswith(wanted)), (0, True), done.output)
        told = json.loads(fieldc("stable", *files, "--kinds", "2", "--json", *names).output)
        self.assertEqual([one["value"][1][0] for one in told["devices"]], ["gate", 1, "mill"])
        for more, says in (((), "give --names too"), ((*names, "--kinds", "4"), "a value has 3")):
            done = fieldc("stable", *files, "--kinds", "all", *more)
            self.assertEqual((done.status, done.output), (2, ""))
            self.assertIn(says, done.errors)

    @needs_fc
    def test_a_file_that_is_missing_is_named(self) -> None:
        program, scene = self.file(HOPS, "hops.fc"), self.file(LINE, "line.json")
        for command, files, says in (
            ("run", (program, scene), "script"),
            ("check", (program,), "network"),
            ("mail", (program, scene), "mail log"),
        ):
            done = fieldc(command, *files)
            self.assertEqual((done.status, done.output), (3, ""), command)
            self.assertIn(f"try: The {says} is missing: give its file too", done.errors)

    def test_an_fc_that_isnt_one(self) -> None:
        program, scene = self.file(HOPS, "hops.fc"), self.file(LINE, "line.json")
        for fc in ("/bin/cat", "/bin/true", "/bin/false", "/bin/echo"):
            for words in (("format", program), ("stable", program, scene), ("check", program, scene), ("gen", 3)):
                done = fieldc(*words, FC=fc)
                self.assertEqual((done.status, done.output), (2, ""), (fc, words))
                self.assertIn(f"{fc} doesn't answer like fc", done.errors)


class Ending(InFolder):
    def test_an_interrupt_at_any_time_is_no_traceback(self) -> None:
        # where the tests run in the background, interrupts are ignored, and so would all be that they start
        self.addCleanup(signal.signal, signal.SIGINT, signal.signal(signal.SIGINT, signal.default_int_handler))
        slow = Path(self.file("#!/bin/sh\nexec sleep 60\n", "fc"))
        slow.chmod(0o755)
        environment = dict(os.environ, FC=str(slow))
        for seconds in (0.0, 0.02, 0.05, 0.1, 0.2, 0.4, 1.5):
            # a terminal interrupts all processes of a group, the shell of the launcher and what it waits for alike
            with subprocess.Popen(
                [TOP / "fieldc", "gen", "3"], stdout=subprocess.PIPE, stderr=subprocess.PIPE, env=environment,
                start_new_session=True,
            ) as process:  # fmt: skip
                time.sleep(seconds)
                os.killpg(process.pid, signal.SIGINT)
                output, errors = process.communicate(timeout=50)
                self.assertIn(process.returncode, (-signal.SIGINT, 130))
                self.assertEqual((output, errors.strip()), (b"", b""), seconds)

    @needs_fc
    @needs("matplotlib")
    def test_a_wrong_backend_is_not_used(self) -> None:
        program, scene = self.file(HOPS, "hops.fc"), self.file(LINE, "line.json")
        done = fieldc("picture", program, scene, "-o", "x.png", folder=self.folder, MPLBACKEND="nonsense")
        self.assertEqual((done.status, done.errors), (0, ""))

    @needs_fc
    @needs("distributed")
    def test_a_scheduler_that_is_none(self) -> None:
        program = self.file(HOPS, "hops.fc")
        sweep = ("sweep", program, "--line", 3, "--set", "src=true@0", "-o", "rows.csv", "--scheduler")
        for address, says in (
            ("nonsense", "nonsense isn't the address of a scheduler: write HOST:PORT"),
            ("localhost:1", "the scheduler localhost:1 can't be reached"),
        ):
            done = fieldc(*sweep, address, folder=self.folder, seconds=100)
            self.assertEqual((done.status, done.output, done.errors.count("\n")), (2, "", 1), done)
            self.assertIn(says, done.errors)


if __name__ == "__main__":
    unittest.main()

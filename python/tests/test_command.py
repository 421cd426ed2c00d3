"""The command line: each command on examples, files by name, JSON, names, refusals, statuses, and the line of long
work."""

from __future__ import annotations

import json
import os
import pty
import subprocess
import sys
import unittest
from pathlib import Path

from helping import EXAMPLES, HOPS, LINE, TOP, expected, fieldc, needs, needs_fc
from test_files import InFolder

from fieldc import networks as network
from fieldc.command import COMMANDS, modules, parser


class Words(unittest.TestCase):
    def test_help_of_each_command(self) -> None:
        self.assertIn("check", fieldc("--help").output)
        for name in modules():
            done = fieldc(name, "--help")
            self.assertEqual((done.status, done.errors), (0, ""), name)
            self.assertIn(f"usage: fieldc {name}", done.output)
        self.assertEqual(set(COMMANDS) - set(modules()) - {"compose"}, set())
        self.assertTrue(callable(parser().parse_args(["check", "-"]).perform))

    def test_version(self) -> None:
        self.assertEqual(fieldc("--version").output, "fieldc 1.0\n")

    def test_wrong_words(self) -> None:
        for words in ((), ("chek", "x"), ("check",), ("run", "x", "--workers", "two"), ("gen", "x"), ("network",)):
            done = fieldc(*words)
            self.assertEqual((done.status, done.output), (2, ""), words)
            self.assertRegex(done.errors, "^fieldc[^\n]*--help\n$")
        for words in (
            ("check", "x", "--fact"),
            ("stable", "x", "--facts"),
            ("gen", "3", "4"),
            ("run", "x", "--work", "2"),
        ):
            done = fieldc(*words)
            self.assertEqual((done.status, done.output), (2, ""), words)
            self.assertIn(f"fieldc {words[0]} --help", done.errors)
        done = fieldc("check", "--from-table", "x", "y")
        self.assertEqual((done.status, done.output), (2, ""))
        self.assertIn("needs --settle", done.errors)

    def test_files_that_arent_there(self) -> None:
        done = fieldc("check", "none.fc", "none.json")
        self.assertEqual((done.status, done.output), (5, ""))
        self.assertIn("none.fc can't be read: No such file", done.errors)
        self.assertIn("standard input can be read only once", fieldc("check", "-", "-").errors)
        told = json.loads(fieldc("check", "none.fc", "none.json", "--json").errors)
        self.assertEqual((told["status"], told["line"]), (5, None))
        self.assertIn("can't be read", told["explanation"]["what"])

    def test_no_fc(self) -> None:
        done = fieldc("gen", 3, FC="/none/fc")
        self.assertEqual((done.status, done.output), (2, ""))
        self.assertIn("/none/fc isn't a program", done.errors)


@needs_fc
class Answers(InFolder):
    def test_examples_as_fc_writes_them(self) -> None:
        rows = {
            "channel": ("replay",),
            "crowd": ("replay",),
            "sensor_field": ("replay",),
            "channel_stable": ("stable",),
            "sensor_field_stable": ("stable",),
            "sensor_field_trace": ("trace",),
            "crowd_settle": ("settle",),
            "crowd_run": ("run",),
            "sensor_field_run": ("run", "--workers", 2),
            "lossy_line": ("mail",),
        }
        for name, words in rows.items():
            done = fieldc(*words, EXAMPLES / f"{name}.txt")
            self.assertEqual((done.output, done.status), (expected(name), 0), name)
        self.assertEqual(fieldc("check", "--settle", EXAMPLES / "crowd_settle.txt").output, expected("crowd_settle"))

    def test_files_by_name_and_standard_input(self) -> None:
        program, scene = self.file(HOPS, "hops.fc"), self.file(LINE, "line.json")
        both, script = self.file(f"{HOPS}%%\r\n{LINE}", "both.txt"), self.file("run 22\nshow\n", "script.txt")
        wanted = "0 0\n1 1\n2 2\n"
        self.assertEqual(fieldc("stable", program, scene).output, wanted)
        self.assertEqual(fieldc("stable", both).output, wanted)
        self.assertEqual(fieldc("stable", "-", text=f"{HOPS}%%\n{LINE}").output, wanted)
        self.assertEqual(fieldc("stable", program, "-", text=LINE).output, wanted)
        self.assertEqual(fieldc("stable", "-", scene, text=HOPS).output, wanted)
        self.assertEqual(fieldc("check", program, "--facts", scene, "--settle").output.splitlines()[-1], "2 5 2")
        for files in ((program, scene, script), (both, script), (program, "--workers", 2, scene, script)):
            self.assertEqual(fieldc("run", *files).output, "yes 22\n@2\n" + wanted)

    def test_json(self) -> None:
        program, scene = self.file(HOPS, "hops.fc"), self.file(LINE, "line.json")
        names = self.file("id,name\n1,mill\n", "names.csv")
        found = json.loads(fieldc("settle", program, scene, "--json", "--names", names).output)
        self.assertEqual(found["verdict"], {"stabilises": True, "rounds": 22})
        self.assertEqual(found["devices"][1], {"id": 1, "name": "mill", "value": 1, "rounds": 3})
        done = fieldc("check", program, self.file("{", "wrong.json"), "--json")
        self.assertEqual((done.status, done.output), (3, ""))
        told = json.loads(done.errors)
        self.assertEqual((told["status"], told["line"]), (3, "json"))
        self.assertTrue(told["explanation"]["what"])

    def test_names_in_answers(self) -> None:
        program, scene = self.file(HOPS, "hops.fc"), self.file(LINE, "line.json")
        names = self.file("id,name\n0,gate\n2,mill\n", "names.csv")
        script = self.file("run 22\nshow\n", "script.txt")
        self.assertEqual(
            fieldc("trace", program, scene, "--names", names).output,
            "yes 22\ngate 0 gate\n1 1 gate 1\nmill 2 gate 1 mill\n",
        )
        found = fieldc("check", "--settle", "--facts", program, scene, "--names", names).output
        self.assertIn("\n0 rep int", found)
        self.assertIn("settles 5\ngate 1 0\n1 3 1\nmill 5 2\n", found)
        self.assertEqual(
            fieldc("run", program, scene, script, "--names", names).output, "yes 22\n@2\ngate 0\n1 1\nmill 2\n"
        )

    def test_statuses_and_explanations(self) -> None:
        scene = self.file(LINE, "line.json")
        no = self.file(HOPS.replace("+ 1", "+ 0"), "no.fc")
        done = fieldc("check", no, scene)
        self.assertEqual((done.status, done.output), (1, "no 0 growth-zero\n"))
        self.assertIn("read: docs/", done.errors)
        done = fieldc("check", no, scene, "--json")
        found = json.loads(done.output)
        self.assertEqual((done.status, done.errors, found["verdict"]["reason"]), (1, "", "growth-zero"))
        self.assertIn("docs/", found["explanation"]["page"])
        self.assertEqual(
            fieldc("trace", self.file("ceiling 10; input src: bool; main = 3;", "flat.fc"), scene).status, 1
        )
        away = self.file("ceiling 10; input src: bool; main = rep(0){(x) => maxHoodLoc(nbr{x}, 0)};", "away.fc")
        done = fieldc("settle", away, scene)
        self.assertEqual((done.status, done.output), (1, "no 0 converging\nopen\n0 -\n1 -\n2 -\n"))
        self.assertIn("for 3 of 3 devices", done.errors)
        wrong = self.file("ceiling 10;\nmain = 1 == 2;\n", "wrong.fc")
        done = fieldc("format", wrong)
        self.assertEqual((done.status, done.output), (3, ""))
        self.assertTrue(done.errors.startswith("fieldc: syntax 2 2\n"))
        done = fieldc("run", EXAMPLES / "crowd_run.txt", "--workers", 17)
        self.assertEqual((done.status, done.output), (4, ""))
        self.assertIn("limit workers 17", done.errors)
        done = fieldc("check", EXAMPLES / "crowd_run.txt")
        self.assertEqual((done.status, done.output), (3, ""))
        self.assertTrue(done.errors.startswith("fieldc: sections 3\n"))
        self.assertEqual(fieldc("gen", 1, "--devices", 2).status, 2)

    def test_a_reader_that_goes_away(self) -> None:
        program = self.file("ceiling 10; main = uid;\n")
        devices = ",".join(f'{{"id":{d},"inputs":{{}}}}' for d in range(1024))
        rows = f'{{"devices":[{devices}],"links":[]}}'
        script = self.file("\n".join(["show"] * 200), "script.txt")
        command = [sys.executable, "-B", "-m", "fieldc", "run", program, self.file(rows, "net.json"), script]
        for unbuffered in ("", "1"):
            environment = dict(os.environ, PYTHONPATH=str(TOP / "python"), PYTHONUNBUFFERED=unbuffered)
            with subprocess.Popen(command, stdout=subprocess.PIPE, stderr=subprocess.PIPE, env=environment) as process:
                assert process.stdout is not None and process.stderr is not None
                process.stdout.read(10)
                process.stdout.close()
                self.assertEqual((process.stderr.read(), process.wait()), (b"", 6))

    @needs("matplotlib")
    def test_the_settled_value_goes_into_a_picture(self) -> None:
        done = fieldc(
            "picture", EXAMPLES / "sensor_field_stable.txt", "--of", "settle", "-o", "x.svg", folder=self.folder
        )
        self.assertEqual(done.status, 0, done.errors)
        self.assertRegex(done.output, "^the last, after [0-9]+ rounds: device")


def on_a_terminal(*words: object, fc: str) -> str:
    """What a command writes on standard error, where that is a terminal."""
    front, back = pty.openpty()
    environment = dict(os.environ, PYTHONPATH=str(TOP / "python"), FC=fc)
    command = [sys.executable, "-B", "-m", "fieldc", *map(str, words)]
    process = subprocess.Popen(command, stdout=subprocess.PIPE, stderr=back, env=environment)
    process.communicate()
    os.close(back)
    written = b""
    try:
        while part := os.read(front, 4096):
            written += part
    except OSError:
        pass
    os.close(front)
    return written.decode()


class LongWork(InFolder):
    def slow(self, seconds: float) -> str:
        path = Path(self.file(f"#!/bin/sh\nsleep {seconds}\necho 'yes 22'\n", "fc"))
        path.chmod(0o755)
        return str(path)

    def test_a_line_says_that_it_goes_on(self) -> None:
        program, scene = self.file(HOPS, "hops.fc"), self.file(LINE, "line.json")
        script = self.file("scramble 1\nrun 20\nmix 3 set 0 src false\nshow\n", "script.txt")
        # slower than the line that is wanted, so that a busy machine writes it too
        said = on_a_terminal("run", program, scene, script, fc=self.slow(4))
        self.assertIn("fieldc: fc run --workers 4, 3 devices", said)
        self.assertIn("23 rounds: 2 s", said)
        self.assertTrue(said.endswith("\r"))
        self.assertEqual(said.split("\r")[-2].strip(), "")

    @needs("matplotlib")
    def test_drawing_says_so_too(self) -> None:
        self.file(network.grid(32, 32).scene(), "net.json")
        said = on_a_terminal("picture", self.folder / "net.json", "-o", self.folder / "net.png", fc="fc")
        self.assertRegex(said, "fieldc: draws 1,024 devices: [1-9][0-9]* s")

    def test_quick_work_and_pipes_are_silent(self) -> None:
        program, scene = self.file(HOPS, "hops.fc"), self.file(LINE, "line.json")
        self.assertEqual(on_a_terminal("check", program, scene, fc=self.slow(0)), "")
        done = fieldc("check", program, scene, FC=self.slow(2))
        self.assertEqual((done.output, done.errors), ("yes 22\n", ""))

    @needs_fc
    def test_an_fc_that_starts_late_gets_all_of_a_long_input(self) -> None:
        late = Path(self.file(f"#!/bin/sh\nsleep 0.5\nexec {os.environ['FC']} \"$@\"\n", "fc"))
        late.chmod(0o755)
        scene, wanted = self.file(LINE, "line.json"), "0 0\n1 1\n2 2\n"
        for size in (100 * 1024, 1024 * 1024):
            front = "//" + "-" * (size - len(f"//\n{HOPS}%%\n{LINE}")) + "\n"
            program = self.file(front + HOPS, "hops.fc")
            done = fieldc("stable", program, scene, "--no-cut-check", seconds=60, FC=str(late))
            self.assertEqual((done.status, done.output, done.errors), (0, wanted, ""), size)
            asked = "import fieldc, sys; p, n = (open(name).read() for name in sys.argv[1:])"
            asked += "; print(*fieldc.stable(p, n).values.values())"
            environment = dict(os.environ, PYTHONPATH=str(TOP / "python"), FC=str(late))
            words = [sys.executable, "-B", "-c", asked, program, scene]
            said = subprocess.run(words, capture_output=True, text=True, env=environment, timeout=60, check=True)
            self.assertEqual(said.stdout, "0 1 2\n", size)

    def test_another_program_than_fc(self) -> None:
        done = fieldc("gen", 3, FC=self.slow(0))
        self.assertEqual((done.status, done.output), (2, ""))
        self.assertIn("doesn't answer like fc: 'yes 22", done.errors)


if __name__ == "__main__":
    unittest.main()

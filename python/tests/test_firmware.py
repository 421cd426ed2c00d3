"""`fieldc firmware`: what it writes compiles without a warning, does what `fc` does, and takes only what it should."""

from __future__ import annotations

import csv
import ctypes
import importlib
import json
import re
import shutil
import subprocess
import sys
import tempfile
import unittest
from pathlib import Path
from typing import Any

import firmware_costs
from firmware_driver import STRICT, Compiler
from firmware_runs import case_of, compared, programs_of_cases
from firmware_fuzz import fuzzed
from firmware_programs import DEEP, TELLING, made
from helping import HOPS, TOP, fieldc, needs, needs_fc
from test_pages import commands_of, typed

from fieldc.blocks import own_library, read_library
from fieldc.firmware import Firmware, firmware_of, header_text, layout_text, source_text
from fieldc.firmware.cost import MACHINES, ROOMS, device_bytes, work

SEEDS = 8
CASES = 8
COMPILERS = [name for name in ("gcc", "clang") if shutil.which(name)]
needs_gcc = unittest.skipIf(shutil.which("gcc") is None, "gcc isn't there (Debian: gcc)")
needs_both = unittest.skipIf(len(COMPILERS) < 2, "gcc or clang isn't there (Debian: gcc, clang)")
HEARD, OLD, FULL, LENGTH, PROGRAM, VALUE, LINK = range(7)


def written(firmware: Firmware, folder: Path) -> Path:
    """The C file of a firmware, with its header beside it."""
    (folder / f"{firmware.name}.h").write_text(header_text(firmware))
    path = folder / f"{firmware.name}.c"
    path.write_text(source_text(firmware))
    return path


@needs_fc
@needs("lark")
@needs_both
class Values(unittest.TestCase):
    """Each value behind each firing is that of `fc`; `firmware_runs.py` does the same of any number of programs."""

    def runs(self, found: list[tuple[str, str]], firings: int = 6) -> None:
        cases = [case_of(seed, text, number, firings) for number, (seed, text) in enumerate(found)]
        with tempfile.TemporaryDirectory() as folder:
            self.assertGreater(
                compared(cases, [Compiler(name) for name in COMPILERS], Path(folder), "all"), 20 * len(cases)
            )

    def test_random_programs(self) -> None:
        self.runs([(str(seed), made(seed).text) for seed in range(SEEDS)])

    def test_programs_that_tell(self) -> None:
        self.runs([(f"telling {place}", text) for place, text in enumerate(TELLING)], 12)

    def test_programs_of_the_conformance_cases(self) -> None:
        found = list(programs_of_cases())
        self.assertGreater(len(found), 300)
        self.runs(found[7 :: len(found) // CASES][:CASES])


@needs_fc
@needs("lark")
@needs_both
class AnyBytes(unittest.TestCase):
    """No bytes do harm, and what is taken is what some export says; `firmware_fuzz.py` does the same of more."""

    def test_random_and_changed_messages(self) -> None:
        firmwares = [firmware_of(made(seed).text, f"p{seed}", 8) for seed in range(100, 104)]
        with tempfile.TemporaryDirectory() as folder:
            found = fuzzed(firmwares, 4000, 1, Compiler("clang"), Path(folder))
        self.assertEqual(found.heard, 16_000)
        self.assertGreater(found.taken, 1000)
        self.assertGreater(found.judged, 100)


class Lent:
    """A device of a firmware that is a library of this process."""

    def __init__(self, library: ctypes.CDLL, firmware: Firmware, number: int) -> None:
        self.library, self.firmware = library, firmware
        self.state = ctypes.create_string_buffer(device_bytes(firmware, firmware.neighbours))
        self.call("init", number)

    def call(self, word: str, *words: Any) -> Any:
        function = getattr(self.library, f"{self.firmware.name}_{word}")
        return function(self.state, *words)

    def fire(self, *values: int) -> int:
        return int(self.call("fire", bytes(values)))

    def message(self) -> bytes:
        """The message to broadcast; nothing where there is none."""
        getattr(self.library, f"{self.firmware.name}_send").restype = ctypes.c_void_p
        found = self.call("send")
        return b"" if found is None else ctypes.string_at(found, self.firmware.layout.message_bytes)

    def hear(self, sender: int, message: bytes, weight: int = 1) -> int:
        return int(self.call("hear", sender, weight, message, len(message)))


@needs("lark")
@needs_gcc
class Calls(unittest.TestCase):
    """The calls of the header, on a hop count of the ceiling 20 with room for three neighbours."""

    firmware: Firmware
    library: ctypes.CDLL

    @classmethod
    def setUpClass(cls) -> None:
        folder = tempfile.TemporaryDirectory()
        cls.addClassCleanup(folder.cleanup)
        cls.firmware = firmware_of(HOPS.replace("10", "20"), "hops", 3)
        path = written(cls.firmware, Path(folder.name))
        out = path.with_suffix(".so")
        subprocess.run(
            ["gcc", *STRICT, "-DHOPS_TEST", "-O1", "-shared", "-fPIC", str(path), "-o", str(out)], check=True
        )
        cls.library = ctypes.CDLL(str(out))

    def device(self, number: int) -> Lent:
        return Lent(self.library, self.firmware, number)

    def test_a_source_and_its_neighbour(self) -> None:
        source, other = self.device(0), self.device(1)
        self.assertEqual(source.message(), b"")
        for count in range(4):
            source.fire(1)
            message = source.message()
            self.assertEqual((len(message), message[2]), (4, count))
            self.assertEqual(other.hear(0, message), HEARD)
        self.assertEqual([other.fire(0), other.fire(0)], [1, 1])
        self.assertEqual(other.message()[3], 1 << 3)
        self.assertTrue(other.call("forget", 0))
        self.assertFalse(other.call("forget", 0))
        self.assertEqual(other.fire(0), 20)

    def test_old_messages_are_dropped_and_a_restart_is_heard(self) -> None:
        device = self.device(1)
        head = divmod(self.firmware.checksum, 256)

        def message(count: int) -> bytes:
            return bytes([*head, count % 256, 0])

        self.assertEqual(device.hear(0, message(100)), HEARD)
        self.assertEqual([device.hear(0, message(100 - late)) for late in range(32)], [OLD] * 32)
        self.assertEqual(device.hear(0, message(68)), HEARD)
        for count in range(69, 600):
            self.assertEqual(device.hear(0, message(count)), HEARD)
        for last in range(256):
            device.call("forget", 0)
            device.hear(0, message(last))
            answers = [device.hear(0, message(count)) for count in range(33)]
            self.assertIn(HEARD, answers, last)

    def test_a_full_table_refuses(self) -> None:
        device = self.device(9)
        message = bytes([*divmod(self.firmware.checksum, 256), 0, 0])
        self.assertEqual([device.hear(sender, message) for sender in (1, 2, 3)], [HEARD] * 3)
        before = device.state.raw
        self.assertEqual(device.hear(4, message), FULL)
        self.assertEqual(device.state.raw, before)
        self.assertTrue(device.call("forget", 2))
        self.assertEqual(device.hear(4, message), HEARD)

    def test_what_is_no_message_changes_nothing(self) -> None:
        device = self.device(9)
        high, low = divmod(self.firmware.checksum, 256)
        good = bytes([high, low, 0, 20 << 3])
        device.hear(1, good)
        before = device.state.raw
        for message, answer in (
            (b"", LENGTH),
            (good + b"\0", LENGTH),
            (good[:3], LENGTH),
            (bytes([high ^ 1, low, 1, 0]), PROGRAM),
            (bytes([high, low ^ 128, 1, 0]), PROGRAM),
            (bytes([high, low, 1, 21 << 3]), VALUE),
            (bytes([high, low, 1, 1]), VALUE),
        ):
            self.assertEqual(device.hear(2, message), answer, message)
        self.assertEqual(device.hear(9, good), LINK)
        self.assertEqual([device.hear(2, good, 0), device.hear(2, good, 2)], [LINK, LINK])
        self.assertEqual(device.state.raw, before)

    def test_a_held_state_is_an_export(self) -> None:
        device = self.device(9)
        head = bytes(divmod(self.firmware.checksum, 256))
        self.assertFalse(device.call("hold", head + bytes([5, 21 << 3]), b"\0"))
        self.assertFalse(device.call("hold", head + bytes([5, 20 << 3]), bytes([21 << 3])))
        self.assertTrue(device.call("hold", head + bytes([5, 20 << 3]), bytes([7 << 3])))
        self.assertEqual(device.fire(0), 20)
        self.assertEqual(device.message()[3], 7 << 3)


@needs("lark")
class Text(unittest.TestCase):
    """What is written of a program."""

    def test_the_hop_count_is_small(self) -> None:
        firmware = firmware_of(HOPS.replace("10", "20"), "hops", 8)
        self.assertEqual(firmware.layout.message_bytes, 4)
        self.assertLessEqual(device_bytes(firmware, 8), 256)
        self.assertEqual((work(firmware).once, work(firmware).each), (9, 2))

    @needs_both
    def test_the_header_is_one_of_cpp_and_tells_the_size(self) -> None:
        with tempfile.TemporaryDirectory() as folder:
            lines = []
            for seed in range(6):
                for room in ROOMS:
                    one = firmware_of(made(seed).text, f"p{seed}_{room}", room)
                    written(one, Path(folder))
                    size = device_bytes(one, room)
                    test = f"sizeof({one.name}_device) == {size}"
                    lines += [f'#include "{one.name}.h"', f"char {one.name}_is[{test} ? 1 : -1];"]
            path = Path(folder) / "all.cpp"
            path.write_text("\n".join(lines) + "\n")
            for compiler in ("g++", "clang++"):
                if shutil.which(compiler):
                    words = [
                        compiler,
                        "-std=c++11",
                        "-pedantic",
                        "-Wall",
                        "-Wextra",
                        "-Wconversion",
                        "-Wshadow",
                        "-Werror",
                    ]
                    subprocess.run([*words, "-fsyntax-only", str(path)], check=True)

    @needs_both
    def test_the_deepest_programs_compile(self) -> None:
        with tempfile.TemporaryDirectory() as folder:
            for place, text in enumerate(DEEP):
                path = written(firmware_of(text, f"p{place}"), Path(folder))
                for compiler in COMPILERS:
                    subprocess.run([compiler, *STRICT, "-fsyntax-only", str(path)], check=True)

    def test_the_layout_covers_each_bit_once(self) -> None:
        for seed in range(40):
            firmware = firmware_of(made(seed).text, "p")
            found = json.loads(layout_text(firmware))
            bits = sorted((slot["at"], slot["bits"]) for slot in found["slots"])
            at = 24
            for begin, count in bits:
                self.assertEqual(begin, at)
                at += count
            self.assertEqual(found["bytes"], -(-at // 8))

    def test_neither_memory_nor_recursion_nor_library(self) -> None:
        for seed in range(40):
            text = source_text(firmware_of(made(seed).text, "p"))
            self.assertNotRegex(text, r"\b(malloc|calloc|realloc|free|memcpy|float|double)\s*\(")
            self.assertEqual([line for line in text.splitlines() if line.startswith("#include")], ['#include "p.h"'])


@needs_fc
@needs("lark")
class Command(unittest.TestCase):
    """The command line."""

    def setUp(self) -> None:
        kept = tempfile.TemporaryDirectory()
        self.addCleanup(kept.cleanup)
        self.folder = Path(kept.name)
        (self.folder / "hops.fc").write_text(HOPS)

    def run_(self, *words: object, text: str = "") -> Any:
        return fieldc("firmware", *words, folder=self.folder, text=text)

    def test_writes_two_files(self) -> None:
        done = self.run_("hops.fc", "--name", "count", "--neighbours", 4)
        self.assertEqual((done.status, done.output, done.errors), (0, "", ""))
        self.assertIn("#define COUNT_NEIGHBOURS 4", (self.folder / "count.h").read_text())
        self.assertIn('#include "count.h"', (self.folder / "count.c").read_text())

    def test_blocks_are_found(self) -> None:
        program = "language 2; ceiling 100; input src: bool; main = hops(sense src, 12);"
        done = self.run_("-", "--name", "far", "--layout", text=program)
        self.assertEqual((done.status, json.loads(done.output)["slots"][0]["most"]), (0, 12))

    def test_a_no_is_a_warning(self) -> None:
        program = "ceiling 5;\nmain = rep(0){(x) => x + 1};"
        (self.folder / "net.json").write_text('{"devices":[{"id":0,"inputs":{}}],"links":[]}')
        done = self.run_("-", "--name", "up", "--network", "net.json", text=program)
        self.assertEqual(done.status, 0)
        self.assertIn("warning: standard input:2:8: no 0 unguarded", done.errors)
        self.assertIn("on net.json: settles 5", done.errors)
        self.assertTrue((self.folder / "up.c").exists())

    def test_refusals(self) -> None:
        for words, text, status, said in (
            (("-",), "ceiling 5; main = x;", 3, "Nothing named `x`"),
            (("-",), "ceiling 5; main = hop(1);", 3, "no block is called hop"),
            (("-",), "ceiling 5; main = 1", 3, "standard input:1"),
            (("hops.fc", "--name", "int"), "", 2, "can't be the name"),
            (("hops.fc", "--name", "string"), "", 2, "can't be the name"),
            (("hops.fc", "--name", "2"), "", 2, "can't be the name"),
            (("hops.fc", "--neighbours", 33), "", 2, "33 is no number from 1 to 32"),
            (("hops.fc", "-o", "nowhere"), "", 6, "no such folder"),
            (("none.fc",), "", 5, "can't be read"),
            (("hops.fc", "--network", "hops.fc"), "", 3, "json"),
        ):
            with self.subTest(words=words, text=text):
                done = self.run_(*words, text=text)
                self.assertEqual((done.status, done.output), (status, ""))
                self.assertIn(said, done.errors)
                self.assertNotIn("Traceback", done.errors)


@needs("lark")
class Page(unittest.TestCase):
    """What docs/firmware.md says."""

    text = (TOP / "docs/firmware.md").read_text()

    @needs_fc
    def test_commands_write_what_stands_below_them(self) -> None:
        with tempfile.TemporaryDirectory() as folder:
            typed(self, Path(folder), commands_of(self.text))

    def test_costs(self) -> None:
        with (TOP / "docs/firmware_costs.csv").open(newline="") as file:
            title, *rows = csv.reader(file)
        self.assertEqual(title, list(firmware_costs.TITLE))
        found = firmware_costs.calls()
        library = read_library([own_library()])
        blocks = {name for name, block in library.items() if not block.is_part}
        self.assertEqual({call.partition("(")[0] for call in found}, blocks)
        machines = all(shutil.which(machine.front + "gcc") for machine in MACHINES)
        for cells, call in zip(rows, found, strict=True):
            mine = firmware_costs.row(call, library, machines and call.startswith("hops("))
            self.assertEqual((cells[: len(mine)], len(cells)), (mine, len(title)))
        shown = [line for line in self.text.splitlines() if line.startswith("| `") and line.count("|") == 10]
        wanted = [f"| `{call}` | {' | '.join(costs)} |" for call, *costs in rows]
        self.assertEqual((len(shown), set(shown) - set(wanted)), (5, set()))

    @needs_gcc
    def test_the_loop_compiles(self) -> None:
        loop = re.search(r"(?ms)^```c\n(.*?)^```", self.text)
        assert loop is not None
        with tempfile.TemporaryDirectory() as folder:
            written(firmware_of(HOPS, "hops", 8), Path(folder))
            path = Path(folder) / "loop.c"
            path.write_text(RADIO + loop[1])
            words = ["gcc", *STRICT, "-Wno-missing-prototypes", "-fsyntax-only", str(path)]
            self.assertEqual(subprocess.run(words, capture_output=True, text=True, check=False).stderr, "")


RADIO = """\
#include "hops.h"
typedef struct { uint16_t from; uint8_t bytes[8]; size_t length; } packet;
uint16_t own_address(void);
bool radio_receive(packet *received, unsigned milliseconds);
void radio_broadcast(const uint8_t *bytes, size_t length);
int place_of(uint16_t address);
uint16_t address_at(int place);
bool known(int place);
bool button_pressed(void);
void show(hops_number value);
void loop(void);
"""
"""What the loop of the page is on."""


@needs_fc
@needs("lark")
@needs_gcc
class Deployment(unittest.TestCase):
    """Forty processes with loss, repeats, delays, rubbish and restarts hold what `fc stable` writes."""

    def test_forty_devices(self) -> None:
        sys.path.insert(0, str(TOP / "examples/firmware"))
        deploy = importlib.import_module("deploy")
        changes: list[int] = []
        # on a busy machine one deployment may see fewer changes; each of them has to end as it should
        while max(changes, default=0) <= 100 and len(changes) < 3:
            outcome = deploy.deployed(2 + len(changes))
            self.assertEqual((len(outcome.wanted), outcome.starts), (40, 46))
            self.assertEqual(outcome.found, outcome.wanted)
            changes.append(len(outcome.changes))
        self.assertGreater(max(changes), 100, changes)


if __name__ == "__main__":
    unittest.main()

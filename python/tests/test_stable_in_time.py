"""`fc stable` answers in time where its guess could be wrong: each program on 1,024 devices within some times a fixed
piece of work in the same run, and on twelve devices with the values of a run from rubbish."""

from __future__ import annotations

import json
import os
import subprocess
import unittest

from helping import fixed_work, needs_fc, used

# No answer takes as long as the fixed work; a slow corner takes minutes or hours.
MOST_TIMES = 10
SOURCE = "mux(sense src, 0, {c})"
PROGRAMS = {
    "a first value that never rests": "main = rep(rep(0){(y) => 1 - y}){(d) => minHoodLoc(nbr{d} + 1, {c})};",
    "seven leaves": "main = rep(({l}, ((0, 0), (0, (0, (0, 0)))))){(d) => minHoodLoc((fst(nbr{d}) + 1, snd(nbr{d})),"
    " mux(sense src, (0, ((1, 2), (3, (4, (5, uid))))), ({l}, ((0, 0), (0, (0, (0, 0)))))))};",
    "seventy additions": "main = rep({c}){(d) => minHoodLoc(nbr{d} + 1" + " + 0" * 70 + ", " + SOURCE + ")};",
    "pairs whose leads tie": "main = rep((9, 0)){(d) => minHoodLoc((fst(nbr{d}) + 1, snd(nbr{d})), (0, uid))};",
    "a share in a branch, with a field from outside it": "main = let q = nbr{sense w} in"
    " if (1 < sense w) {share(0){(x) => minHoodLoc(x + 1, sumHood(q))}} {uid};",
    "first values in first values": "main = rep(share(rep(0){(y) => 1 - y}){(z) => sumHood(z + 1)})"
    "{(d) => minHoodLoc(nbr{d} + 2, " + SOURCE + ")};",
    "a first value with a branch that toggles": "main = rep(rep(0){(y) => if (y < 1) {sumHood(nbr{y}) + 1} {1 - y}})"
    "{(d) => minHoodLoc(nbr{d} + 1, " + SOURCE + ")};",
    "weights times 0": "metric 0..9; main = rep({c}){(d) => minHoodLoc(nbr{d} + nbrLink * 0 + 1, " + SOURCE + ")};",
    "a potential with ties": "main = let q = sense w * 3 in"
    " share(0){(x) => maxHoodLoc(mux(nbr{q} < q, x, 0), sense w)};",
    "a count downhill by number": "main = let q = uid in rep(0){(x) => 1 + sumHood(mux(nbr{q} < q, nbr{x}, 0))};",
    "limited rise": "main = rep(0){(d) => rise(minHoodLoc(nbr{d} + 3, " + SOURCE + "), d, 1)};",
    "the least of two that are heard": "main = share(9){(d) => minHoodLoc(min(d * 2 + 1, d + 4), " + SOURCE + ")};",
    "a gradient in a branch of a branch": "main = let g = rep({c}){(d) => minHoodLoc(nbr{d} + 1, " + SOURCE + ")} in"
    " if (g < 6) {if (g < 3) {rep({c}){(d) => minHoodLoc(nbr{d} + 1, g)}} {g}} {uid};",
}


def text_of(program: str, ceiling: int) -> str:
    head, main = program.split("main = ")
    body = main.replace("{c}", str(ceiling)).replace("{l}", str(ceiling - 1))
    return f"language 2;\nceiling {ceiling};\ninput src: bool;\ninput w: int 0..9;\n{head}\nmain = {body}\n"


def line(devices: int) -> str:
    """Devices in a line, of which the first is a source."""
    rows = [{"id": n, "inputs": {"src": n == 0, "w": n * 7 % 10}} for n in range(devices)]
    return json.dumps({"devices": rows, "links": [[n, n + 1, 1] for n in range(devices - 1)]}) + "\n"


@needs_fc
class StableInTime(unittest.TestCase):
    def ask(self, *parts: str, words: tuple[str, ...] = ("stable",)) -> str:
        done = subprocess.run(
            [os.environ["FC"], *words], input="%%\n".join(parts), capture_output=True, text=True, check=False
        )
        self.assertEqual(done.returncode, 0, (parts[0], done.stdout[:200], done.stderr[:200]))
        return done.stdout

    def test_each_is_answered_in_time(self) -> None:
        for name, program in PROGRAMS.items():
            with self.subTest(name):
                text = text_of(program, 1_000_000 if "never rests" in name else 4000)
                unit, took = fixed_work(), used(lambda: self.ask(text, line(1024)))
                self.assertLess(took / unit, MOST_TIMES, f"{took:.1f} s, and {unit:.1f} s for the fixed work")

    def test_each_has_the_values_of_a_run(self) -> None:
        for name, program in PROGRAMS.items():
            with self.subTest(name):
                text, network = text_of(program, 40), line(12)
                rounds = self.ask(text, network, words=("check",)).split()[1]
                ran = self.ask(text, network, f"scramble 3\nrun {rounds}\nshow\n", words=("run",))
                self.assertEqual(self.ask(text, network), ran.split("@3\n")[1])


if __name__ == "__main__":
    unittest.main()
